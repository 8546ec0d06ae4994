//! What the machine's case file has to hold; it is not written otherwise.

use crate::machine::*;
use crate::make_machine::Case;
use crate::worked;
use std::collections::BTreeMap;

const FEWEST_CASES: usize = 3_000;
const FEWEST_OF_A_CODE: usize = 100;
const LONGEST_FILE: usize = 2_500_000;

/// Sorts of cases and the fewest of each.
const SORTS: [(&str, usize); 14] = [
    ("0 steps", 100),
    ("1 to 9 steps", 100),
    ("10 to 99 steps", 100),
    ("100 to 299 steps", 50),
    ("300 steps or more", 10),
    ("just enough room", 100),
    ("one byte short", 100),
    ("program over 65,536", 1),
    ("field over 65,536", 2),
    ("scratch over 65,536", 20),
    ("used past the buffer", 20),
    ("scratch shorter than the buffer", 20),
    ("several bad sizes", 1),
    ("largest sizes", 10),
];

/// Stops everything if the cases are too few, too alike or too long; hands back how many there are of each sort.
pub fn confirm(cases: &[Case], file_length: usize) -> BTreeMap<String, usize> {
    let mut counts = BTreeMap::new();
    for case in cases {
        let answer = case.run().0;
        for sort in sorts(case, answer).into_iter().chain([format!("code {}", answer.code)]) {
            *counts.entry(sort).or_default() += 1;
        }
    }
    let fewest = |sort: &str, fewest| {
        let count = counts.get(sort).copied().unwrap_or(0);
        assert!(count >= fewest, "{count} cases of {sort}, where {fewest} are wanted");
    };
    assert!(cases.len() >= FEWEST_CASES, "{} cases", cases.len());
    assert!(file_length <= LONGEST_FILE, "{file_length} bytes of cases");
    (DONE..=BAD_FIELD).for_each(|code| fewest(&format!("code {code}"), FEWEST_OF_A_CODE));
    SORTS.iter().for_each(|(sort, count)| fewest(sort, *count));
    for (number, run) in worked::runs().iter().chain(&worked::matches_as_runs()).enumerate() {
        assert!(cases.iter().any(|case| is_worked(case, run)), "worked run {number} is missing");
    }
    counts
}

fn sorts(case: &Case, answer: Answer) -> Vec<String> {
    let mut sorts = Vec::new();
    if answer.code < BAD_SIZES {
        sorts.push(steps_sort(answer.steps));
        // With one byte less room the run would stop for want of it, and with one more it would go on.
        if answer.code != NO_ROOM && case.with_room(-1).is_some_and(|less| less.run().0.code == NO_ROOM) {
            sorts.push("just enough room");
        }
        if answer.code == NO_ROOM && case.with_room(1).is_some_and(|more| more.run().0.steps > answer.steps) {
            sorts.push("one byte short");
        }
    }
    let bad = bad_sizes(case);
    sorts.extend(&bad);
    if bad.len() > 1 {
        sorts.push("several bad sizes");
    }
    if bad.is_empty() && [case.program.len(), case.buffer.len(), case.scratch].contains(&LONGEST) {
        sorts.push("largest sizes");
    }
    sorts.into_iter().map(str::to_owned).collect()
}

fn steps_sort(steps: u32) -> &'static str {
    match steps {
        0 => "0 steps",
        1..=9 => "1 to 9 steps",
        10..=99 => "10 to 99 steps",
        100..=299 => "100 to 299 steps",
        _ => "300 steps or more",
    }
}

fn bad_sizes(case: &Case) -> Vec<&'static str> {
    let room = case.buffer.len();
    let found = [
        (case.program.len() > LONGEST, "program over 65,536"),
        (room > LONGEST, "field over 65,536"),
        (case.scratch > LONGEST, "scratch over 65,536"),
        (case.used > room, "used past the buffer"),
        (case.scratch < room, "scratch shorter than the buffer"),
    ];
    found.into_iter().filter(|(holds, _)| *holds).map(|(_, sort)| sort).collect()
}

fn is_worked(case: &Case, run: &worked::Run) -> bool {
    let field = case.buffer.get(..case.used);
    let as_given = case.program == run.program && field == Some(&run.field) && case.budget == run.budget;
    as_given && case.buffer.len() == run.room && case.run().0 == run.answer
}
