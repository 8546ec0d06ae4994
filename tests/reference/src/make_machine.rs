//! Cases for the run and for the desk: invented programs at work, every refusal, and the largest sizes.

use crate::check::{bad_field, bad_program};
use crate::element::*;
use crate::invent::*;
use crate::machine::*;
use crate::make_checks::{long_field, long_program};
use crate::manual;
use crate::notation::{bytes, hex};
use crate::worked;

/// One start of the machine; the desk takes it without the budget.
#[derive(Clone)]
pub struct Case {
    pub program: Vec<u8>,
    pub buffer: Vec<u8>,
    pub used: usize,
    pub scratch: usize,
    pub fill: u8,
    pub budget: u32,
}

pub fn fnv(bytes: &[u8]) -> u32 {
    bytes.iter().fold(2_166_136_261, |hash, byte| (hash ^ u32::from(*byte)).wrapping_mul(16_777_619))
}

impl Case {
    pub fn run(&self) -> (Answer, String) {
        let (mut field, mut scratch) = (self.buffer.clone(), vec![self.fill; self.scratch]);
        let answer = run(&self.program, &mut field, self.used, &mut scratch, self.budget);
        let Answer { code, steps, used, place } = answer;
        (answer, format!("{code} {steps} {used} {place} {:08X} {:08X}\n", fnv(&field), fnv(&scratch)))
    }

    /// One line after each call; the code is the last record's.
    pub fn desk(&self, calls: u32) -> (u8, String) {
        let (mut field, mut scratch) = (self.buffer.clone(), vec![self.fill; self.scratch]);
        let mut record = Record::fresh(self.used);
        let mut lines = String::new();
        for call in 1..=calls {
            record.call(&self.program, &mut field, &mut scratch);
            let Record { used, code, place } = record;
            self.holds_the_law(call, (code, used, place), &field, &scratch);
            let part = pointer(code, used, place, &self.program, &field);
            let shown = match part.len() {
                0 => "-".to_owned(),
                1..=16 => hex(part),
                _ => hex(&part[..16]) + "+",
            };
            lines += &format!("{used} {code} {place} {:08X} {:08X} {shown}\n", fnv(&field), fnv(&scratch));
        }
        (record.code, lines)
    }

    /// So many calls leave what one run with that budget leaves.
    fn holds_the_law(&self, calls: u32, record: (u8, usize, usize), field: &[u8], scratch: &[u8]) {
        let (mut at_once, mut zero) = (self.buffer.clone(), vec![self.fill; self.scratch]);
        let answer = run(&self.program, &mut at_once, self.used, &mut zero, calls);
        assert_eq!((answer.code, answer.used, answer.place), record, "the law of {calls} calls");
        assert!(at_once == field && zero == scratch, "the law of {calls} calls");
    }

    /// The same with a longer or shorter buffer, where the field still fits; the scratch is as long.
    pub fn with_room(&self, more: isize) -> Option<Case> {
        let room = self.buffer.len().checked_add_signed(more).filter(|room| *room >= self.used)?;
        let mut buffer = self.buffer.clone();
        buffer.resize(room, 0);
        Some(Case { buffer, scratch: room, ..self.clone() })
    }

    /// Program and field in a buffer of this length, rubbish behind the field, a scratch just as long.
    fn new(dice: &Dice, program: &[u8], field: &[u8], room: usize, budget: u32) -> Case {
        let rubbish = dice.rubbish(room - field.len());
        let buffer = [field, &rubbish].concat();
        Case { program: program.to_vec(), buffer, used: field.len(), scratch: room, fill: dice.byte(), budget }
    }
}

/// Left sides that make good functions; random ones come beside them.
const LEFTS: &str =
    "/ e0 / e0 / s0 e1 / t0 e1 / e1 t0 / 'a e0 / e0 'b e1 / ( e0 ) e1 / e0 ( e1 ) e2 / s0 / s0 s0 / t0 t0 e1
    / e0 s0 e1 s0 e2 / e0 t0 t0 e1 / s0 e1 ( s0 t0 ) e2 / e0 e0 / ( e0 ) ( e0 ) / ( s0 e1 ) e2 s0 e3 / t0";

/// Programs that do something sensible, each with a start.
const SENSIBLE: &[(&str, &str)] = &[
    ("{0 s0 e1 = <0 e1 > s0 ; = ; } .", "<0 'stressed >"),
    ("{0 t0 e1 = <0 e1 > t0 ; = ; } .", "'x ( <0 ( 'a ) 'b ( <0 'cd > ) > ) 'y"),
    ("{0 s0 e1 s0 = <0 e1 > ; s0 = #1 ; = #1 ; e0 = #2 ; } .", "<0 'racecar > <0 'abba > <0 'abca >"),
    ("{0 e0 '+ e1 = e0 '- <0 e1 > ; e0 = e0 ; } .", "<0 'a+b+c+ > <0 > <0 '++ >"),
    ("{0 e0 = <0 e0 > ; } .", "<0 'loop >"),
    ("{0 e0 = <0 e0 'a > ; } .", "'x <0 >"),
    ("{0 e0 = <0 e0 e0 > ; } .", "<0 'a >"),
    ("{0 e0 = <1 e0 > ; } {1 e0 = <0 e0 > ; } .", "( <0 > )"),
    ("{0 e0 = <0 <0 e0 > > ; } .", "<0 >"),
    ("{0 = <1 > ; } {1 = <2 > ; } {2 = <3 > ; } .", "<0 > <0 >"),
    ("{0 = 'a ; } {0 = 'b ; e0 = 'c ; } .", "<0 > <0 'x >"),
    ("{256 = 'a ; } {1 = 'b ; } .", "<1 > <256 > <257 >"),
    ("{1798 e0 = ( e0 ) ; } .", "<1798 <1798 > > <1799 >"),
    ("{0 'a e0 = 'b <0 e0 > ; 'b e0 = 'a <0 e0 > ; = ; } .", "<0 'abba > <0 'abca >"),
    ("{0 ( e0 ) ( e1 ) = <0 ( e0 'i ) e1 > ; ( e0 ) s1 e2 = <0 ( e0 'i ) e2 > ; ( e0 ) = e0 ; } .", "<0 ( ) 'abc >"),
    (worked::P, "<1 'p ( 'q 'a ) ( 'p ( 'in ) ) ( 'p ( 'out ) ) >"),
    (worked::P, "<1 'p ( 'p <1 'q ( 'q <9 > ) > ) >"),
    (worked::TRI, "<3 <3 <3 'a > > >"),
    (".", "'a ( <0 > )"),
    (".", "'a ( 97 )"),
];

/// A function of each known name, at times a second of one name; calls go to a missing one now and then.
fn invented(dice: &Dice) -> (Vec<u8>, Vec<u8>) {
    let names = [0, 1, 2, 0x0100, 0x0706];
    let known = &names[..1 + dice.below(4)];
    let doubled = known[..dice.below(known.len() + 1)].iter().filter(|_| dice.once_in(4));
    let given: Vec<&str> = LEFTS.split('/').collect();
    let mut program = Vec::new();
    for name in known.iter().chain(doubled) {
        let mut lefts = Vec::new();
        for _ in 0..1 + dice.below(3) {
            let random = side(dice, dice.below(6), &[], &some_variables(dice, 2));
            lefts.push(if dice.once_in(3) { random } else { bytes(dice.pick(&given)) });
        }
        if dice.once_in(2) {
            lefts.push(bytes("e0"));
        }
        let called = [known, &names, &[], &[]][dice.below(4)];
        program.extend(function(dice, *name, &lefts, 8, called));
    }
    program.push(END_PROGRAM);
    let called = if dice.once_in(8) { &names } else { known };
    let mut start = field(dice, 2 + dice.below(16), called);
    // Without a call there is nothing to do, so few starts are left without one.
    while !start.contains(&CALL) && !dice.once_in(8) {
        start = field(dice, 2 + dice.below(16), called);
    }
    (program, start)
}

/// The longest the field gets when nothing but this budget and this room holds it back.
fn longest_field(program: &[u8], field: &[u8], room: usize, budget: u32) -> usize {
    let mut buffer = field.to_vec();
    buffer.resize(room, 0);
    let (mut record, mut longest, mut scratch) = (Record::fresh(field.len()), 0, vec![0; room]);
    for _ in 0..budget {
        longest = longest.max(record.used);
        record.call(program, &mut buffer, &mut scratch);
    }
    longest.max(record.used)
}

/// One program and field with ample room, with just enough, one byte short, and with budgets about the turning point.
fn variations(dice: &Dice, program: &[u8], field: &[u8], list: &mut Vec<Case>) {
    let ample = field.len() + 150;
    let free = Case::new(dice, program, field, ample, 200);
    let steps = free.run().0.steps;
    let exact = longest_field(program, field, ample, 200);
    let fewer_steps = dice.below(steps as usize + 2) as u32;
    let some_room = field.len() + dice.below(60);
    let mut tries = vec![(exact, 200), (ample, steps), (ample, fewer_steps), (some_room, 1 + dice.below(40) as u32)];
    if exact > field.len() {
        tries.extend([(exact - 1, 200), (field.len() + dice.below(exact - field.len()), 200)]);
    }
    for (room, budget) in tries {
        let mut case = Case::new(dice, program, field, room, budget);
        case.scratch += if dice.once_in(3) { dice.below(30) } else { 0 };
        list.push(case);
    }
    match dice.below(4) {
        0 => list.push(Case::new(dice, program, field, ample, 0)),
        1 => list.push(Case::new(dice, program, field, ample, steps + 1)),
        _ => list.push(free),
    }
}

/// Each bad size alone, and beside a bad program and field, which it hides.
fn bad_sizes(dice: &Dice, list: &mut Vec<Case>) {
    for round in 0..24 {
        let (mut program, mut field) = invented(dice);
        program.truncate(if round % 3 == 1 { dice.below(program.len()) } else { program.len() });
        field.truncate(if round % 3 == 2 { dice.below(field.len()) } else { field.len() });
        let room = field.len() + dice.below(20);
        let good = Case::new(dice, &program, &field, room, 10);
        for used in [room + 1, room + 1 + dice.below(100), LONGEST + 1] {
            list.push(Case { used, ..good.clone() });
        }
        if room > 0 {
            list.push(Case { scratch: room - 1, ..good.clone() });
            list.push(Case { scratch: dice.below(room), ..good.clone() });
        }
        list.push(Case { scratch: LONGEST + 1, ..good.clone() });
        // The largest scratch that is still good.
        list.push(Case { scratch: LONGEST, ..good });
    }
    let small = Case::new(dice, &bytes("."), &bytes("'a"), 2, 1);
    list.push(Case { program: long_program(LONGEST + 1, 0), ..small.clone() });
    list.push(Case { buffer: long_field(LONGEST + 1, false), scratch: LONGEST, ..small.clone() });
    list.push(Case { buffer: long_field(LONGEST + 1, false), scratch: LONGEST + 1, ..small.clone() });
    list.push(Case { used: u32::MAX as usize, ..small.clone() });
    for (used, scratch) in [(0, 0), (0, 1), (1, 0), (1, 1)] {
        list.push(Case { buffer: Vec::new(), used, scratch, ..small.clone() });
        list.push(Case { buffer: Vec::new(), program: Vec::new(), used, scratch, ..small.clone() });
    }
}

/// Bad programs and fields, alone and together, and used lengths that cut a good field.
fn bad_bytes(dice: &Dice, list: &mut Vec<Case>) {
    let spoil = |dice: &Dice, good: &[u8], bad: fn(&[u8]) -> Option<usize>| loop {
        let mut changed = good.to_vec();
        match dice.below(3) {
            0 => changed.truncate(dice.below(good.len())),
            1 => changed.push(dice.byte()),
            _ => changed[dice.below(good.len())] = dice.below(18) as u8,
        }
        if bad(&changed).is_some() {
            return changed;
        }
    };
    for _ in 0..70 {
        let (program, field) = invented(dice);
        let bad_program = spoil(dice, &program, bad_program);
        let bad_field = spoil(dice, &field, bad_field);
        for (program, field) in [(&bad_program, &field), (&program, &bad_field), (&bad_program, &bad_field)] {
            let room = field.len() + dice.below(30);
            let mut case = Case::new(dice, program, field, room, dice.below(5) as u32);
            case.scratch += dice.below(10);
            list.push(case);
        }
        let mut case = Case::new(dice, &program, &field, field.len() + 5, 30);
        case.used = dice.below(field.len());
        list.push(case);
    }
}

/// Fields, programs and buffers of the largest size.
fn large(dice: &Dice, list: &mut Vec<Case>) {
    let call = |argument: Vec<u8>| [bytes("<1"), argument, bytes(">")].concat();
    let inside = LONGEST - 4;
    let nested = [bytes("<1").repeat(LONGEST / 4), vec![END_CALL; LONGEST / 4]].concat();
    let last_b = [long_field(inside - 4, false), bytes("'b 'c")].concat();
    let starts: [(&str, Vec<u8>, u32); 13] = [
        ("{1 e0 = e0 ; } .", call(long_field(inside, false)), 9),
        ("{1 e0 = <1 e0 > ; } .", call(long_field(inside, false)), 9),
        ("{1 e0 = <1 e0 'a > ; } .", call(long_field(inside - 7, false)), 9),
        ("{1 e0 = ( e0 ) ; } .", nested.clone(), 40),
        ("{1 e0 = e0 'abc ; } .", nested.clone(), 40),
        ("{1 e0 = 'abcd ; } .", nested, 5),
        ("{1 ( e0 ) = <1 e0 > ; } .", call(long_field(inside, true)), 60),
        ("{1 t0 = t0 ; } .", call(long_field(inside, true)), 2),
        ("{1 e0 'b e1 = e1 <2 > e0 ; } .", call(last_b), 2),
        ("{1 s0 e1 s0 'z = ; s0 e1 = <2 ( e1 ) > ; } {2 ( e0 ) = ; } .", call(long_field(inside, false)), 3),
        (".", long_field(LONGEST, false), 7),
        (".", [long_field(LONGEST - 1, true), vec![CLOSE]].concat(), 7),
        ("{1 = ; } .", [long_field(LONGEST - 3, false), bytes("<1")].concat(), 7),
    ];
    for (program, field, budget) in starts {
        list.push(Case::new(dice, &bytes(program), &field, LONGEST, budget));
    }
    // Doubled fourteen times, one character and its call have 32,772 bytes.
    for room in [LONGEST, LONGEST - 1, 32_772, 32_771] {
        list.push(Case::new(dice, &bytes("{1 e0 = <1 e0 e0 > ; } ."), &bytes("<1 'a >"), room, 100));
    }
    let half = call([long_field(LONGEST / 2, false), bytes("'x")].concat());
    for room in [LONGEST, LONGEST - 1] {
        list.push(Case::new(dice, &bytes("{1 e0 'x = e0 e0 ; } ."), &half, room, 2));
    }
    for (start, length) in [("<65535 #7 > <9999 >", LONGEST), ("<65535 > <9999 > <10001 >", LONGEST - 1)] {
        list.push(Case::new(dice, &long_program(length, 10_000), &bytes(start), 30, 9));
    }
    let mut damaged = long_program(LONGEST, 7);
    damaged[LONGEST - 1] = HEADER;
    list.push(Case::new(dice, &damaged, &bytes("<1 >"), 30, 9));
    list.push(Case::new(dice, &bytes("{1 = ; } ."), &[], LONGEST, 0));
}

fn worked_case(dice: &Dice, run: &worked::Run) -> Case {
    Case::new(dice, &run.program, &run.field, run.room, run.budget)
}

fn worked_cases(dice: &Dice) -> Vec<Case> {
    worked::runs().iter().map(|run| worked_case(dice, run)).collect()
}

/// Programs that never end, or not soon, with budgets of some hundreds of steps.
fn long_runs(dice: &Dice, list: &mut Vec<Case>) {
    for (program, field, room) in [
        ("{0 e0 = <0 e0 > ; } .", "<0 'loop >", 12),
        ("{0 e0 = <1 e0 > ; } {1 e0 = <0 e0 > ; } .", "'a ( <0 > ) <2 >", 12),
        ("{0 s0 e1 = <0 e1 s0 > ; } .", "<0 'abcde > 97", 19),
        ("{0 e0 = <0 e0 'a > ; } .", "'x <0 >", 700),
        ("{0 e0 = <1 > <0 e0 > ; } {1 = ; } .", "( <0 'b > )", 12),
        ("{0 ( s0 e1 ) e2 = <0 ( e1 ) e2 s0 > ; ( ) e1 = <0 ( e1 ) > ; } .", "<0 ( 'ab 97 ) #7 >", 22),
    ] {
        for _ in 0..16 {
            let budget = 100 + dice.below(500) as u32;
            list.push(Case::new(dice, &bytes(program), &bytes(field), room, budget));
        }
    }
}

/// The manual's programs, with each budget that their files name, in just enough room; and one byte short.
fn manual_cases(dice: &Dice, list: &mut Vec<Case>) {
    for program in manual::programs() {
        for run in &program.runs {
            for budget in run.budgets() {
                let exact = longest_field(&program.bytes, &run.start, run.start.len() + 1_000, budget);
                list.push(Case::new(dice, &program.bytes, &run.start, exact + dice.pick(&[0, 0, 1, 9]), budget));
                if exact > run.start.len() {
                    list.push(Case::new(dice, &program.bytes, &run.start, exact - 1, budget));
                }
            }
        }
    }
}

pub fn cases() -> Vec<Case> {
    let dice = Dice::new(3);
    let mut list = worked_cases(&dice);
    for (program, field) in SENSIBLE {
        for _ in 0..3 {
            variations(&dice, &bytes(program), &bytes(field), &mut list);
        }
        list.push(Case::new(&dice, &bytes(program), &bytes(field), 700, 500));
    }
    // Where the run ends by itself, the largest budget there is changes nothing.
    for start in ["<0 'stressed >", "<0 'x > <3 >", "<0 ( ) >"] {
        list.push(Case::new(&dice, &bytes(SENSIBLE[0].0), &bytes(start), 60, u32::MAX));
    }
    for _ in 0..400 {
        let (program, field) = invented(&dice);
        variations(&dice, &program, &field, &mut list);
    }
    bad_sizes(&dice, &mut list);
    bad_bytes(&dice, &mut list);
    large(&dice, &mut list);
    long_runs(&dice, &mut list);
    list.extend(worked::matches_as_runs().iter().map(|run| worked_case(&dice, run)));
    manual_cases(&dice, &mut list);
    list
}

/// The desk's cases, each with its number of calls.
pub fn desk_cases() -> Vec<(Case, u32)> {
    let dice = Dice::new(4);
    let mut list = worked_cases(&dice);
    for (program, field) in SENSIBLE {
        variations(&dice, &bytes(program), &bytes(field), &mut list);
    }
    for _ in 0..40 {
        let (program, field) = invented(&dice);
        variations(&dice, &program, &field, &mut list);
    }
    let (mut refused, mut big) = (Vec::new(), Vec::new());
    bad_sizes(&dice, &mut refused);
    bad_bytes(&dice, &mut refused);
    large(&dice, &mut big);
    list.extend(refused.into_iter().step_by(3));
    list.extend(big.into_iter().step_by(3));
    list.into_iter().map(|case| (case, 1 + dice.below(12) as u32)).collect()
}
