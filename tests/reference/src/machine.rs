//! The whole run, the desk and the pointer; everything is read anew at each step.

use crate::check::{bad_field, bad_program};
use crate::element::*;
use crate::matching::{plain, put_in};

pub const DONE: u8 = 0;
pub const PAUSED: u8 = 1;
pub const NO_MATCH: u8 = 2;
pub const NO_FUNCTION: u8 = 3;
pub const NO_ROOM: u8 = 4;
pub const BAD_SIZES: u8 = 5;
pub const BAD_PROGRAM: u8 = 6;
pub const BAD_FIELD: u8 = 7;

pub const LONGEST: usize = 65_536;

#[derive(Clone, Copy, Debug, PartialEq)]
pub struct Answer {
    pub code: u8,
    pub steps: u32,
    pub used: usize,
    pub place: usize,
}

/// The leftmost call that holds no other: the first `>` closes it.
fn leading_term(field: &[u8]) -> Option<(usize, usize)> {
    let mut latest_call = None;
    for (at, element) in elements(field) {
        match element[0] {
            CALL => latest_call = Some(at),
            END_CALL => return latest_call.map(|start| (start, at + 1)),
            _ => {}
        }
    }
    None
}

/// Sentences as left and right sides, of the earliest function with this name.
fn sentences_of(program: &[u8], name: u16) -> Option<Vec<(&[u8], &[u8])>> {
    let mut sentences = None;
    let (mut left, mut equals) = (0, 0);
    for (at, element) in elements(program) {
        match element[0] {
            HEADER if number(element) == name => {
                sentences = Some(Vec::new());
                left = at + element.len();
            }
            EQUALS => equals = at,
            END_SENTENCE => {
                if let Some(list) = &mut sentences {
                    list.push((&program[left..equals], &program[equals + 1..at]));
                }
                left = at + 1;
            }
            END_FUNCTION if sentences.is_some() => return sentences,
            _ => {}
        }
    }
    None
}

pub fn run(program: &[u8], field: &mut [u8], used: usize, scratch: &mut [u8], budget: u32) -> Answer {
    let refused = |code, place| Answer { code, steps: 0, used, place };
    let too_long = [program.len(), field.len(), scratch.len()].iter().any(|length| *length > LONGEST);
    if too_long || used > field.len() || scratch.len() < field.len() {
        return refused(BAD_SIZES, 0);
    }
    scratch.fill(0);
    if let Some(place) = bad_program(program) {
        return refused(BAD_PROGRAM, place);
    }
    if let Some(place) = bad_field(&field[..used]) {
        return refused(BAD_FIELD, place);
    }
    let mut now = field[..used].to_vec();
    let mut steps = 0;
    let (code, place) = loop {
        let Some((start, end)) = leading_term(&now) else { break (DONE, 0) };
        if steps == budget {
            break (PAUSED, 0);
        }
        let Some(sentences) = sentences_of(program, number(&now[start..])) else { break (NO_FUNCTION, start) };
        let argument = &now[start + 3..end - 1];
        let fit = |&(left, right): &(&[u8], &[u8])| plain(left, argument).map(|values| put_in(right, &values));
        let Some(result) = sentences.iter().find_map(fit) else { break (NO_MATCH, start) };
        // The leading term goes away, so its length is free for the result.
        if now.len() - (end - start) + result.len() > field.len() {
            break (NO_ROOM, start);
        }
        now.splice(start..end, result);
        steps += 1;
    };
    field.fill(0);
    field[..now.len()].copy_from_slice(&now);
    Answer { code, steps, used: now.len(), place }
}

/// What the support desk keeps between its calls.
pub struct Record {
    pub used: usize,
    pub code: u8,
    pub place: usize,
}

impl Record {
    pub fn fresh(used: usize) -> Record {
        Record { used, code: PAUSED, place: 0 }
    }

    pub fn call(&mut self, program: &[u8], field: &mut [u8], scratch: &mut [u8]) {
        if self.code == PAUSED {
            let answer = run(program, field, self.used, scratch, 1);
            *self = Record { used: answer.used, code: answer.code, place: answer.place };
        }
    }
}

/// The pointer: the part of the program or of the field from the place on.
pub fn pointer<'a>(code: u8, used: usize, place: usize, program: &'a [u8], field: &'a [u8]) -> &'a [u8] {
    let part = match code {
        BAD_PROGRAM => program.get(place..),
        NO_MATCH | NO_FUNCTION | NO_ROOM | BAD_FIELD => field.get(..used).and_then(|whole| whole.get(place..)),
        _ => None,
    };
    part.unwrap_or(&[])
}
