//! Cases for the checks: good bytes, bytes damaged at random, and every clause and limit in turn.

use crate::check::{first_fault, Fault, Spot};
use crate::element::*;
use crate::invent::*;
use crate::machine::LONGEST;
use crate::matching::Variable;
use crate::notation::bytes;
use crate::worked;
use std::collections::BTreeSet;

const PROGRAM: u8 = b'P';
const FIELD: u8 = b'F';

/// As what it is to be read, and the bytes.
pub type Case = (u8, Vec<u8>);

pub fn fault(case: &Case) -> Option<Fault> {
    first_fault(&case.1, if case.0 == PROGRAM { Spot::Outside } else { Spot::Field })
}

pub fn cases() -> Vec<Case> {
    let dice = Dice::new(1);
    let mut list = Vec::new();
    for case in worked::runs() {
        list.extend([(PROGRAM, case.program), (FIELD, case.field)]);
    }
    for _ in 0..420 {
        damage(&dice, PROGRAM, program(&dice), &mut list);
    }
    for _ in 0..300 {
        let size = dice.below(if dice.once_in(6) { 80 } else { 14 });
        damage(&dice, FIELD, field(&dice, size, &[0, 0x0504, 0xFFFF]), &mut list);
    }
    kinds_everywhere(&mut list);
    brackets(&mut list);
    element_limits(&mut list);
    variable_limits(&dice, &mut list);
    for text in STRUCTURE.split('/') {
        list.extend([(PROGRAM, bytes(text)), (FIELD, bytes(text))]);
    }
    large(&mut list);
    let mut seen = BTreeSet::new();
    list.retain(|case| seen.insert(case.clone()));
    list
}

fn any_element(dice: &Dice) -> Vec<u8> {
    let kind = 1 + dice.below(15) as u8;
    let body = body_length(kind).expect("kinds 01 to 0F are known");
    [vec![kind], (0..body).map(|_| dice.below(17) as u8).collect()].concat()
}

/// Good bytes, and each of the ways to spoil them once.
fn damage(dice: &Dice, tag: u8, good: Vec<u8>, list: &mut Vec<Case>) {
    let starts: Vec<usize> = elements(&good).iter().map(|(at, _)| *at).chain([good.len()]).collect();
    if !good.is_empty() {
        for values in [256, 16, 16] {
            let mut changed = good.clone();
            changed[dice.below(good.len())] = dice.below(values) as u8;
            list.push((tag, changed));
        }
        let gone = dice.below(starts.len() - 1);
        list.push((tag, [&good[..starts[gone]], &good[starts[gone + 1]..]].concat()));
        list.push((tag, good[..dice.below(good.len())].to_vec()));
    }
    let at = dice.pick(&starts);
    list.push((tag, [&good[..at], &any_element(dice), &good[at..]].concat()));
    list.push((tag, [&good[..], &any_element(dice)].concat()));
    list.push((tag, [&good[..], &[dice.byte()]].concat()));
    list.push((tag, good));
}

/// Every kind at every sort of spot (`@`), whole and cut short, with bodies that matter to variables.
fn kinds_everywhere(list: &mut Vec<Case>) {
    let in_programs =
        "@ . / {1 = ; } @ . / {1 @ = ; } . / {1 'a @ = ; } . / {1 s1 ( @ ) = ; } . / {1 t1 e1 = ( ) @ ; } .
        / {1 s1 = <2 ( @ ) > ; } . / {1 s1 = <2 @ > ; } . / {1 = ; @ = ; } . / {1 = ; @ } . / {1 = ; } . @ / . @ .";
    let in_fields = "@ / 'a ( @ ) 97 / <1 ( @ ) > / <1 'a @ >";
    for kind in (0..=0x17).chain([0x1F, 0x40, 0x7F, 0x80, 0xFE, 0xFF]) {
        let body = body_length(kind).unwrap_or(0);
        for element in [0, 1, 15, 16, 255].map(|low| [kind, low, 0, 0, 0]) {
            for (tag, spots) in [(PROGRAM, in_programs), (FIELD, in_fields)] {
                for (before, after) in spots.split(" / ").filter_map(|spot| spot.split_once('@')) {
                    list.push((tag, [&bytes(before), &element[..1 + body], &bytes(after)].concat()));
                    let cut = |kept| (tag, [&bytes(before), &element[..1 + kept]].concat());
                    list.extend((0..=body).map(cut));
                }
            }
        }
    }
}

/// Every string of brackets up to a length, in fields and on both sides.
fn brackets(list: &mut Vec<Case>) {
    let mut strings = vec![String::new()];
    // Each string met is lengthened by every bracket, until the strings are five brackets long.
    for at in 0..1 + 4 + 16 + 64 + 256 {
        for bracket in ["(", ")", "<7", ">"] {
            strings.push(format!("{} {bracket}", strings[at]));
        }
    }
    for text in &strings[..1 + 4 + 16 + 64 + 256] {
        list.push((FIELD, bytes(text)));
        list.push((PROGRAM, bytes(&format!("{{1 = {text} ; }} ."))));
    }
    for text in strings.iter().filter(|text| !text.contains(['<', '>'])) {
        list.push((PROGRAM, bytes(&format!("{{1 {text} = ; }} ."))));
    }
}

/// Sides of n elements about the limit, in several shapes (h is half of n, l one less, m two less) and with several ends.
fn element_limits(list: &mut Vec<Case>) {
    let shapes = "n*'a / n*s0 / n*( / h*( h*) / h*( e0 h*) / h*<2 h*> / ( m*97 ) / <2 m*'a > / m*'a ( ) / ( l*'a
        / l*#9 ( / l*'a ) / l*'a t0 / l*'a e3 / ( ( ) m*'b";
    for (before, limit, after) in
        [("{1", 100, "= ; } ."), ("{1 s0 t0 e0 =", 400, "; } ."), ("{1 s0 =", 400, "; = ; } .")]
    {
        for n in limit - 2..=limit + 2 {
            let counts = [("n*", n), ("h*", n / 2), ("l*", n - 1), ("m*", n - 2)];
            let fill = |text: String, (letter, count): (&str, usize)| text.replace(letter, &format!("{count}*"));
            for shape in counts.into_iter().fold(shapes.to_owned(), fill).split(" / ") {
                // Most ends are tried at the limit alone, to keep the file small.
                for end in [after, "", ")", ") = ; } ."].iter().take(if n == limit { 4 } else { 1 }) {
                    list.push((PROGRAM, bytes(&format!("{before} {shape} {end}"))));
                }
            }
        }
    }
    // A new sentence and a new function count anew.
    let full = "100*'a = 400*'b ;";
    for rest in ["", "'a"] {
        list.push((PROGRAM, bytes(&format!("{{1 {full} {full} }} {{2 {full} {rest} {full} }} ."))));
    }
}

fn spell(variables: &[Variable]) -> Vec<u8> {
    variables.iter().flat_map(|v| [v.0, v.1]).collect()
}

fn variable_limits(dice: &Dice, list: &mut Vec<Case>) {
    let mut sentence = |left: &[u8], right: &[u8]| {
        list.push((PROGRAM, [&bytes("{1"), left, &[EQUALS], right, &bytes("; } .")].concat()));
    };
    for round in 0..60 {
        let count = 14 + round % 4;
        let chosen = some_variables(dice, count);
        let again: Vec<Variable> = (0..dice.below(8)).map(|_| dice.pick(&chosen[..14])).collect();
        let known = spell(&chosen[..dice.below(count + 1)]);
        // Repeated ones between, last, and none but brackets: only different ones count.
        sentence(&[spell(&chosen[..14]), spell(&again), spell(&chosen[14..])].concat(), &known);
        sentence(&[spell(&chosen), spell(&again)].concat(), &known);
        sentence(&[&[OPEN], &spell(&chosen[..8])[..], &[CLOSE], &spell(&chosen[8..])].concat(), &known);
    }
    for kind in [S, T, E] {
        let row: Vec<u8> = (0..16).flat_map(|number| [kind, number]).collect();
        for other in [S, T, E] {
            sentence(&[&row[..], &[other, 0]].concat(), &[]);
            sentence(&row, &[other, 0]);
        }
        for number in [0, 14, 15, 16, 17, 128, 255] {
            sentence(&[kind, number], &[]);
            sentence(&[kind, number], &[kind, number]);
            sentence(&[kind, 15, kind, 0], &[kind, 0, kind, number]);
            sentence(&[&row[..], &[kind, number]].concat(), &[]);
        }
    }
    // Absent from the left, whatever number of variables the left has.
    for count in 0..=16 {
        let chosen = some_variables(dice, count + 1);
        let (present, absent) = (spell(&chosen[..count]), spell(&chosen[count..]));
        sentence(&present, &absent);
        sentence(&present, &[&present[..], &[OPEN], &absent, &[CLOSE]].concat());
        sentence(&present, &present);
    }
}

/// The order of functions and sentences; at the end, what one sentence had neither helps nor burdens the next.
const STRUCTURE: &str =
    "/ . / . . / {1 } . / {1 . / {1 = ; . / {1 {1 = ; } . / {1 = ; {2 = ; } . / {1 = ; } } . / } . / = ; .
    / {1 = ; } / {1 = ; / {1 = / {1 / {1 'a } . / {1 = ; 'a } . / {1 = ; ( } . / {1 = } . / {1 = {2 ; } .
    / {1 = . ; } . / {1 ; } . / {1 = = ; } . / {1 = ; ; } . / {1 ( = ) ; } . / {1 ( = ; } . / {1 = ( ; ) } .
    / {1 ( ; } . / {1 ( . ) = ; } . / {1 <1 > = ; } . / {1 > = ; } . / {1 = ; } {1 = ; } . / {1 = ; } 'a .
    / {1 = ; } ( ) . / {1 = = ; } . . / {1 = ; } . {1 = ; } . / {1 = ; } . } / . 'a / . <1 > / s0 = s0 ; .
    / {1 s0 = s0 ; = s0 ; } . / {1 s0 = ; e0 = s0 ; } . / {1 s0 = ; } {2 t0 = s0 ; } .
    / {1 s0-15 = ; t0-15 = ; } {1 e0-15 = e15 ; } .";

/// A good field of exactly this many bytes, made of deep brackets or of a long string.
pub fn long_field(length: usize, deep: bool) -> Vec<u8> {
    let filler = if length % 2 == 1 { "#7" } else { "" };
    let pairs = (length - bytes(filler).len()) / 2;
    match deep {
        true => bytes(&format!("{pairs}*( {filler} {pairs}*)")),
        false => bytes(&format!("{pairs}*'q {filler}")),
    }
}

/// A good program of exactly this many bytes: many functions, then one of many empty sentences.
pub fn long_program(length: usize, functions: u16) -> Vec<u8> {
    let mut out: Vec<u8> = (0..functions).flat_map(|name| bytes(&format!("{{{name} = ; }}"))).collect();
    out.extend(bytes("{65535"));
    if (length - out.len()) % 2 == 1 {
        out.extend(bytes("#7"));
    }
    let sentences = (length - out.len() - 2) / 2;
    out.extend(bytes("= ;").repeat(sentences));
    out.extend(bytes("} ."));
    out
}

fn large(list: &mut Vec<Case>) {
    for length in [LONGEST - 1, LONGEST] {
        let string = long_field(length, false);
        let deep = long_field(length, true);
        let program = long_program(length, if length == LONGEST { 10_000 } else { 0 });
        let mut cut_symbol = string.clone();
        cut_symbol[length - 2 - length % 2] = MACRODIGIT;
        let opened = long_field(length - 1, length % 2 == 0);
        list.extend([
            (FIELD, string),
            (FIELD, cut_symbol),
            (FIELD, [&deep[..length - 1], &[END_CALL]].concat()),
            (FIELD, deep),
            (FIELD, [&opened[..], &[OPEN]].concat()),
            (PROGRAM, [&program[..length - 2], &[END_PROGRAM, END_PROGRAM]].concat()),
            (PROGRAM, [&program[..length - 1], &[END_FUNCTION]].concat()),
            (PROGRAM, program),
            (PROGRAM, long_program(length + 1, 1_000)[..length].to_vec()),
            (PROGRAM, [&long_program(length - 1, 5_000)[..], &[CHARACTER]].concat()),
        ]);
    }
}
