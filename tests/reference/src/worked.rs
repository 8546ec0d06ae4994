//! The sums of document 01 worked by hand; the numbers here are the document's, not any machine's.

use crate::machine::{run, Answer, DONE, NO_MATCH};
use crate::make_matching::line;
use crate::matching::{brute, plain};
use crate::notation::{bytes, from_hex, hex};

pub const P: &str = "{1 s0 e1 ( s0 t0 ) e2 = t0 ; s0 e1 = ; } .";
pub const TRI: &str = "{3 e0 = e0 e0 e0 ; } .";
const CASE_1: &str = "<1 'p ( 'p #2 ) ( 'p #4 ) >";
const CASE_6: &str = "'x <1 'p ( <1 'p ( 'p 'p ) > #2 ) >";

pub struct Run {
    pub program: Vec<u8>,
    pub field: Vec<u8>,
    pub room: usize,
    pub budget: u32,
    pub answer: Answer,
    left: Vec<u8>,
}

/// Cases 1 to 7 and 12.
pub fn runs() -> Vec<Run> {
    let case = |program: &str, field: &str, room, budget, code, steps, left: &str| {
        let (program, field, left) = (bytes(program), bytes(field), bytes(left));
        Run { program, field, room, budget, answer: Answer { code, steps, used: left.len(), place: 0 }, left }
    };
    let refused = |program: &[u8], field: &[u8], code, place| {
        let answer = Answer { code, steps: 0, used: field.len(), place };
        Run { program: program.to_vec(), field: field.to_vec(), room: 100, budget: 10, answer, left: field.to_vec() }
    };
    let p = bytes(P);
    let mut damaged = p.clone();
    damaged[17] = 5;
    vec![
        case(P, CASE_1, 100, 10, 0, 1, "#2"),
        case(P, "<1 'q ( 'p #2 ) >", 100, 10, 0, 1, ""),
        case(P, "<1 >", 100, 10, 2, 0, "<1 >"),
        case(P, CASE_1, 100, 0, 1, 0, CASE_1),
        case(P, "", 100, 0, 0, 0, ""),
        case(P, "<9 >", 100, 10, 3, 0, "<9 >"),
        case(P, CASE_6, 100, 10, 0, 2, "'x #2"),
        case(P, CASE_6, 100, 1, 1, 1, "'x <1 'p ( 'p #2 ) >"),
        case(TRI, "<3 'ab >", 12, 10, 0, 1, "'ababab"),
        case(TRI, "<3 'ab >", 11, 10, 4, 0, "<3 'ab >"),
        refused(&p[..26], &[], 6, 26),
        refused(&damaged, &[], 6, 16),
        refused(&p, &[4, 7], 7, 1),
        refused(&p, &[4], 7, 1),
        refused(&p, &[6, 1], 7, 0),
    ]
}

/// Cases 8 to 11, and the match of case 1: left side, argument, the line printed.
pub const MATCHES: [(&str, &str, &str); 8] = [
    ("e0 s0 e1 s0 e2", "'abcbac", "yes s0=0161 e0= e1=016201630162 e2=0163\n"),
    ("( e1 '+ e2 ) e3 '+ e1", "( 'a+a+a ) 'a+a+a", "yes e1=0161 e2=0161012B0161 e3=0161012B0161\n"),
    ("t0 t0", "( 'a ) ( 'a )", "yes t0=04016105\n"),
    ("t0 t0", "'a 97", "no\n"),
    ("e0 e0", "", "yes e0=\n"),
    ("e0 e0", "'abab", "yes e0=01610162\n"),
    ("e0 e0", "'aba", "no\n"),
    ("s0 e1 ( s0 t0 ) e2", "'p ( 'p #2 ) ( 'p #4 )", "yes s0=0170 t0=020200 e1= e2=04017002040005\n"),
];

/// Cases 8 to 11 as runs: a function with the left side, whose right side shows each value in brackets.
pub fn matches_as_runs() -> Vec<Run> {
    MATCHES.iter().map(|(left, argument, line)| shown(left, argument, line)).collect()
}

fn shown(left: &str, argument: &str, line: &str) -> Run {
    let bindings: Vec<(&str, &str)> = line.split_whitespace().filter_map(|word| word.split_once('=')).collect();
    let right: String = bindings.iter().map(|(variable, _)| format!("( {variable} ) ")).collect();
    let program = bytes(&format!("{{1 {left} = {right} ; }} ."));
    let field = bytes(&format!("<1 {argument} >"));
    let values: String = bindings.iter().map(|(_, value)| format!("04{value}05")).collect();
    let (code, steps, left) = match line.starts_with("yes") {
        true => (DONE, 1, from_hex(&values)),
        false => (NO_MATCH, 0, field.clone()),
    };
    Run { program, field, room: 100, budget: 10, answer: Answer { code, steps, used: left.len(), place: 0 }, left }
}

/// Stops everything if this reference disagrees with the document; no case file is made then.
pub fn confirm() {
    assert_eq!(hex(&bytes(P)), "0D010008000A010408000900050A020B09000C08000A010B0C0E0F");
    assert_eq!(hex(&bytes(CASE_1)), "0601000170040170020200050401700204000507");
    for (number, case) in runs().into_iter().chain(matches_as_runs()).enumerate() {
        let mut field = [case.field.clone(), vec![0xEE; case.room - case.field.len()]].concat();
        let mut scratch = vec![0xDD; case.room + 3];
        let answer = run(&case.program, &mut field, case.field.len(), &mut scratch, case.budget);
        assert_eq!(answer, case.answer, "run {number}");
        let past = if answer.code < 5 { 0 } else { 0xEE };
        assert_eq!(field, [case.left.clone(), vec![past; case.room - case.left.len()]].concat(), "run {number}");
        assert_eq!(scratch, vec![0; case.room + 3], "run {number}");
    }
    for (left, argument, expected) in MATCHES {
        let (left, argument) = (bytes(left), bytes(argument));
        assert_eq!(line(&brute(&left, &argument)), expected);
        assert_eq!(line(&plain(&left, &argument)), expected);
    }
}
