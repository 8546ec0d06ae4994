//! The reference held against the document and against itself.

use crate::machine::*;
use crate::matching::{all_fits, e_lengths, e_variables, first_fit, put_in};
use crate::notation::bytes;
use crate::text::{read, Names};
use crate::{expand, make_machine, make_matching, make_texts, manual, worked, worked_texts};
use std::collections::BTreeMap;

#[test]
fn worked_cases_are_as_printed() {
    worked::confirm();
}

#[test]
fn worked_texts_are_read_as_by_hand() {
    worked_texts::confirm();
}

#[test]
fn every_refusal_of_a_text_comes_often() {
    let mut counts = BTreeMap::new();
    for case in make_texts::cases() {
        *counts.entry(case.read().0).or_insert(0) += 1;
    }
    assert!(counts.keys().eq([0, 4, 5, 8].iter()) && counts.values().all(|count| *count >= 100), "{counts:?}");
}

#[test]
fn both_matchers_agree() {
    crate::check_brute();
}

#[test]
fn every_reading_of_the_order_is_told_apart() {
    let cases = make_matching::cases();
    for order in 0..3 {
        assert!(cases.iter().filter(|case| case.tells()[order]).count() >= 100);
    }
}

#[test]
fn calls_of_the_desk_leave_what_one_run_leaves() {
    for (case, calls) in make_machine::desk_cases() {
        let (mut field, mut scratch) = (case.buffer.clone(), vec![case.fill; case.scratch]);
        let (mut other, mut other_scratch) = (field.clone(), scratch.clone());
        let mut record = Record::fresh(case.used);
        for _ in 0..calls {
            record.call(&case.program, &mut field, &mut scratch);
        }
        let answer = run(&case.program, &mut other, case.used, &mut other_scratch, calls);
        assert_eq!((record.used, record.code, record.place), (answer.used, answer.code, answer.place));
        assert!(field == other && scratch == other_scratch);
    }
}

#[test]
fn pointer_past_the_end_is_empty() {
    let (program, field) = ([1, 2, 3], [4, 5, 6, 7]);
    assert_eq!(pointer(BAD_PROGRAM, 0, 1, &program, &field), [2, 3]);
    assert_eq!(pointer(BAD_PROGRAM, 0, 3, &program, &field), []);
    assert_eq!(pointer(BAD_PROGRAM, 0, 4, &program, &field), []);
    for code in [NO_MATCH, NO_FUNCTION, NO_ROOM, BAD_FIELD] {
        assert_eq!(pointer(code, 3, 1, &program, &field), [5, 6]);
        assert_eq!(pointer(code, 3, 4, &program, &field), []);
        assert_eq!(pointer(code, 5, 1, &program, &field), []);
    }
    for code in [DONE, PAUSED, BAD_SIZES] {
        assert_eq!(pointer(code, 3, 0, &program, &field), []);
    }
}

#[test]
fn runs_of_the_manual_are_as_printed() {
    assert!(manual::programs().len() >= 10);
}

#[test]
fn text_gives_the_bytes_of_the_short_hand() {
    for (text, short) in [
        ("Find { s.0 e.1 (s.0 t.0) e.2 = t.0; s.0 e.1 = ; }", "{0 s0 e0 ( s0 t0 ) e1 = t0 ; s0 e0 = ; } ."),
        ("F{=;} ; G{sXeX=<F (eX)sX>}", "{0 = ; } {1 s0 e0 = <0 ( e0 ) s0 > ; } ."),
        ("F { e.x e1 = eX e.X e.1 }", "{0 e0 e1 = e0 e0 e1 ; } ."),
        ("* gone\n'it''s' /* ; */ \"it's\" 97", "'it's 'it's 97"),
        ("Sum_1 SUM-1 A 'A'", "#0 #0 #1 'A"),
        ("", ""),
    ] {
        assert_eq!(read(text, &mut Names::default()), Ok(bytes(short)), "{text}");
    }
}

#[test]
fn malformed_text_is_refused() {
    for text in [
        "'a",
        "'a\nb'",
        "4294967296",
        "< F>",
        "<f>",
        "Sixteen-letters-",
        "s",
        "sx",
        "s.",
        "/* ",
        "F { }",
        "F { = ",
        "(",
        "a",
        "s.1",
    ] {
        assert!(read(text, &mut Names::default()).is_err(), "{text}");
    }
}

/// The user's accident: the first fit finds the contract's price, the last one the catalogue's.
#[test]
fn a_later_match_would_answer_with_the_list_price() {
    let left = bytes("s0 e0 ( s0 e1 ) e2");
    let fits = all_fits(&left, &bytes("'p ( 'p 85 ) ( 'p 120 ) ( 'c #9 )"), 1_000_000).expect("few assignments");
    let order = e_variables(&left);
    let last = fits.iter().max_by_key(|fit| e_lengths(&order, fit)).expect("some fit");
    assert_eq!(put_in(&bytes("e1"), &first_fit(&left, &fits).expect("some fit")), bytes("85"));
    assert_eq!(put_in(&bytes("e1"), last), bytes("120"));
}

#[test]
fn expand_prints_two_lines() {
    let folder = std::env::temp_dir().join(format!("expand-{}", std::process::id()));
    std::fs::create_dir_all(&folder).expect("a folder");
    let print = |rules: Option<Vec<u8>>, start: Vec<u8>| {
        match rules {
            Some(rules) => std::fs::write(folder.join("rules.bin"), rules).expect("a file"),
            None => drop(std::fs::remove_file(folder.join("rules.bin"))),
        }
        std::fs::write(folder.join("start.bin"), start).expect("a file");
        expand::expand(&folder)
    };
    let case_1 = bytes("<1 'p ( 'p #2 ) ( 'p #4 ) >");
    assert_eq!(print(Some(bytes(worked::P)), case_1.clone()), "0 1 3 0\n02 02 00\n");
    assert_eq!(print(Some(bytes(".")), Vec::new()), "0 0 0 0\n\n");
    assert_eq!(print(Some(bytes(".")), vec![4, 7]), "7 0 2 1\n04 07\n");
    assert_eq!(print(Some(bytes(".")), vec![1; LONGEST + 1]), "5 0 0 0\n\n");
    assert_eq!(print(Some(vec![0; LONGEST + 1]), case_1.clone()), "5 0 0 0\n\n");
    assert_eq!(print(None, bytes("'a")), "6 0 2 0\n01 61\n");
    std::fs::remove_dir_all(folder).expect("the folder goes");
}
