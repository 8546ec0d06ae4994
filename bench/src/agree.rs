//! The fast reference held against the plain one: the answer, and every byte of field and scratch.

use crate::check::{bad_field, bad_program};
use crate::element::*;
use crate::fast;
use crate::invent::*;
use crate::machine::{run, Answer, Record, LONGEST};
use crate::make_machine::Case;
use crate::matching::Variable;
use crate::notation::hex;
use crate::{make_checks, make_machine, manual};
use std::path::Path;

/// Left sides with searches inside and outside brackets, and values met again; random ones come beside these.
const LEFTS: &str =
    "e0 / s0 e1 / e0 s0 / ( e0 ) s1 e2 / ( e0 ) e1 / e0 'a e1 / e0 'ab e1 / s0 e1 s0 / e0 e0 / e0 'a e0 / t0 e1 t0
    / e0 s0 e1 s0 e2 / e0 'a e1 'b e2 / ( e0 'a e1 ) e2 'b e3 / ( e0 'a e1 ) e1 e2 'b e3 / e0 ( e1 'a e2 ) e3
    / e0 ( e1 ) e2 ( e1 ) e3 / s0 e1 ( s0 t2 ) e3 / e0 s1 s1 e2 / e0 t1 e2 t1 e3 / ( e0 ) e1 e0 e2 / e0 e1 e0
    / e0 'a e1 'b / e0 ( s1 ) / e0 ( ( e1 ) e2 ) e3 / ( e0 s1 e2 ) e3 s1 / e0 'a e1 e0 / ( e0 e1 'a ) e1 e0
    / e0 s1 e2 s1 e3 s1 e4 / ( ( e0 ) e1 ) e2 / e0 s1 / 'a e0 'a / e0 ( e0 ) e1 / ( e0 e0 ) e1 / e0 'a / s0 t1 e2
    / e0 ( e1 s2 ) e3 / e0 ( e1 t2 t3 ) e4 / e0 #24833 / s0 e1 #24833 / ( e0 'a e1 ) e2 #24833 / e0 #24833 e1";

/// How often one case of each sort was compared.
pub struct Tally {
    codes: [usize; 8],
    checks: usize,
}

pub fn agree(repository: &Path, invented_cases: usize) {
    let mut tally = Tally { codes: [0; 8], checks: 0 };
    make_machine::cases().iter().for_each(|case| tally.compare(case));
    for (case, calls) in make_machine::desk_cases() {
        tally.compare(&Case { budget: calls, ..case.clone() });
        tally.compare_desk(&case, calls);
    }
    for (bytes, as_program) in make_checks::cases().into_iter().map(|(tag, bytes)| (bytes, tag == b'P')) {
        tally.compare_check(&bytes, as_program);
    }
    // Characters are read four at a time, so a string is cut at every length.
    let string = [CHARACTER, CHARACTER].repeat(40);
    (0..string.len()).for_each(|length| tally.compare_check(&string[..length], false));
    manual_programs(&mut tally);
    examples(&repository.join("examples"), &mut tally);
    let dice = Dice::new(11);
    for _ in 0..invented_cases {
        invented_case(&dice, &mut tally);
    }
    println!(
        "agreed on {} checks and {} runs; by code {:?}",
        tally.checks,
        tally.codes.iter().sum::<usize>(),
        tally.codes
    );
}

impl Tally {
    fn compare(&mut self, case: &Case) {
        let (mut field, mut scratch) = (case.buffer.clone(), vec![case.fill; case.scratch]);
        let (mut plain_field, mut plain_scratch) = (field.clone(), scratch.clone());
        let expected = run(&case.program, &mut plain_field, case.used, &mut plain_scratch, case.budget);
        let given = fast::run(&case.program, &mut field, case.used, &mut scratch, case.budget);
        let same = is_same(given, expected) && field == plain_field && scratch == plain_scratch;
        let start = &case.buffer[..case.used.min(case.buffer.len())];
        assert!(
            same,
            "{given:?} where {expected:?} is right\nprogram {}\nstart {}\nroom {} budget {}\ngiven {}\nright {}",
            hex(&case.program),
            hex(start),
            case.buffer.len(),
            case.budget,
            hex(&field),
            hex(&plain_field)
        );
        self.codes[usize::from(given.code)] += 1;
    }

    /// Calls with budget 1, one after the other.
    fn compare_desk(&mut self, case: &Case, calls: u32) {
        let (mut field, mut scratch) = (case.buffer.clone(), vec![case.fill; case.scratch]);
        let (mut plain_field, mut plain_scratch) = (field.clone(), scratch.clone());
        let (mut record, mut code, mut used) = (Record::fresh(case.used), fast::PAUSED, case.used);
        for _ in 0..calls {
            record.call(&case.program, &mut plain_field, &mut plain_scratch);
            if code == fast::PAUSED {
                let answer = fast::run(&case.program, &mut field, used, &mut scratch, 1);
                (code, used) = (answer.code, answer.used);
            }
            assert!((code, used) == (record.code, record.used) && field == plain_field && scratch == plain_scratch);
            self.codes[usize::from(code)] += 1;
        }
    }

    fn compare_check(&mut self, bytes: &[u8], as_program: bool) {
        let (given, expected) = match as_program {
            true => (fast::check_program(bytes), bad_program(bytes)),
            false => (fast::check_field(bytes), bad_field(bytes)),
        };
        assert_eq!(given, expected, "{}", hex(bytes));
        self.checks += 1;
    }
}

pub fn is_same(given: fast::Answer, expected: Answer) -> bool {
    let fast::Answer { code, steps, used, place } = given;
    Answer { code, steps, used, place } == expected
}

fn manual_programs(tally: &mut Tally) {
    for program in manual::programs() {
        for start in program.runs.iter().map(|run| &run.start) {
            for budget in (0..60).chain([100, 1_000]) {
                tally.compare(&Case {
                    program: program.bytes.clone(),
                    buffer: [&start[..], &[0xEE; 900]].concat(),
                    used: start.len(),
                    scratch: start.len() + 900,
                    fill: 0xDD,
                    budget,
                });
            }
        }
    }
}

/// The rules.bin and start.bin of each folder that has them, with the first budgets.
fn examples(folder: &Path, tally: &mut Tally) {
    for entry in std::fs::read_dir(folder).expect("the examples").map(|entry| entry.expect("an entry").path()) {
        let file = |name| std::fs::read(entry.join(name));
        let (Ok(program), Ok(start)) = (file("rules.bin"), file("start.bin")) else { continue };
        for budget in 0..40 {
            let mut buffer = start.clone();
            buffer.resize(LONGEST, 0);
            let program = program.clone();
            tally.compare(&Case { program, buffer, used: start.len(), scratch: LONGEST, fill: 0, budget });
        }
    }
}

/// A left side out of the list, or a random one.
fn left(dice: &Dice) -> Vec<u8> {
    let given: Vec<&str> = LEFTS.split('/').collect();
    match dice.below(3) {
        0 => {
            let variables: Vec<Variable> = some_variables(dice, 1 + dice.below(4));
            side(dice, dice.below(12), &[], &variables)
        }
        _ => crate::notation::bytes(dice.pick(&given)),
    }
}

/// Symbols out of two, so that much is equal; long strings now and then, and bytes that read as name 24833 from amid.
fn plain_symbol(dice: &Dice) -> Vec<u8> {
    match dice.below(12) {
        0 if dice.once_in(2) => vec![CHARACTER, NAME, CHARACTER, b'a'],
        0 => symbol(dice),
        1 => [CHARACTER, dice.pick(b"ab")].repeat(1 + dice.below(30)),
        _ => vec![CHARACTER, dice.pick(b"aab")],
    }
}

fn program_at_work(dice: &Dice, names: &[u16]) -> Vec<u8> {
    let mut program = Vec::new();
    for name in names {
        let mut lefts: Vec<Vec<u8>> = (0..1 + dice.below(4)).map(|_| left(dice)).collect();
        if dice.once_in(2) {
            lefts.push(vec![E, 0]);
        }
        let size = dice.pick(&[3, 8, 8, 20]);
        program.extend(function(dice, *name, &lefts, size, if dice.once_in(3) { &[] } else { names }));
    }
    program.push(END_PROGRAM);
    program
}

/// One program and start, run with several rooms and budgets; at times a byte is damaged.
fn invented_case(dice: &Dice, tally: &mut Tally) {
    let names = [0, 1, 2, 0x0100, 0x0706];
    let mut program = program_at_work(dice, &names[..1 + dice.below(5)]);
    let mut start = balanced(dice, 4 + dice.below(40), &names[..1 + dice.below(5)], &plain_symbol);
    if dice.once_in(20) {
        let at = dice.below(program.len());
        program[at] = dice.below(18) as u8;
    }
    if dice.once_in(20) {
        let at = dice.below(start.len());
        start[at] = dice.below(10) as u8;
    }
    tally.compare_check(&program, true);
    tally.compare_check(&start, false);
    for _ in 0..4 {
        let room = start.len() + dice.below(dice.pick(&[1, 20, 200, 1_000]));
        let buffer = [&start[..], &dice.rubbish(room - start.len())].concat();
        let budget = dice.below(dice.pick(&[3, 30, 100])) as u32;
        let scratch = room + dice.below(9);
        tally.compare(&Case {
            program: program.clone(),
            buffer,
            used: start.len(),
            scratch,
            fill: dice.byte(),
            budget,
        });
    }
}
