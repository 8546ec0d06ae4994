//! What holds of every answer to a text: found by other ways than the reader's own.

use crate::check::bad_program;
use crate::element::*;
use crate::machine::DONE;
use crate::text::{rules, Answer, Names, BAD_TEXT, RECORD};
use crate::token::next;
use std::collections::BTreeSet;

/// Stops everything if an answer breaks a law.
pub fn confirm(text: &[u8], answer: &Answer) {
    match answer.code {
        DONE => {
            assert_eq!(bad_program(&answer.program), None, "{}", text.escape_ascii());
            names_are_in_order(answer);
            variables_are_in_order(&answer.program);
            gaps_do_not_matter(text, answer);
        }
        BAD_TEXT => nothing_before_is_bad(text, answer.place),
        _ => assert_eq!(answer.place, 0),
    }
}

/// Each name number is one met before, or the next; each has a record, and no two records are alike.
fn names_are_in_order(answer: &Answer) {
    let mut met = 0;
    for (_, element) in elements(&answer.program) {
        if matches!(element[0], NAME | CALL | HEADER) {
            let number = usize::from(number(element));
            assert!(number <= met, "name {number} comes too early");
            met = met.max(number + 1);
        }
    }
    let records: BTreeSet<&[u8]> = answer.list.chunks(16).collect();
    assert!(records.iter().all(|record| record.len() == 16 && record[0] == RECORD && record[1].is_ascii_uppercase()));
    assert_eq!((records.len(), answer.list.len()), (met, 16 * met));
}

fn variables_are_in_order(program: &[u8]) {
    let mut met = [0; 3];
    for (_, element) in elements(program) {
        match element[0] {
            S | T | E => {
                let kind = usize::from(element[0] - S);
                assert!(element[1] <= met[kind], "a variable's number comes too early");
                met[kind] = met[kind].max(element[1] + 1);
            }
            END_SENTENCE => met = [0; 3],
            _ => {}
        }
    }
}

/// The same tokens with other blanks and comments between them give the same bytes.
fn gaps_do_not_matter(text: &[u8], answer: &Answer) {
    // Long texts are left out to save time.
    if text.len() > 3_000 {
        return;
    }
    for gap in [" ", "\n* a comment ' /*\n", "/* a * comment \" */", "\r*/*\r\n\t"] {
        let (mut other, mut at) = (Vec::new(), 0);
        while let Ok(Some(met)) = next(text, at) {
            other.extend(gap.bytes().chain(text[met.place..met.end].iter().copied()));
            at = met.end;
        }
        assert!(rules(&other, &mut Names::default()).as_ref() == Ok(&answer.program), "{}", other.escape_ascii());
    }
}

/// Cut before its first bad token, a text is good or ends early.
fn nothing_before_is_bad(text: &[u8], place: usize) {
    let read = rules(&text[..place], &mut Names::default());
    assert!(read.is_ok() || read == Err(place), "{}", text.escape_ascii());
}
