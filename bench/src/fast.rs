//! The fast reference: document 01's machine in native Rust, unproved, the yardstick of the benchmark.
//!
//! During a run the field lies in its buffer in three parts, with a gap before and a gap after the middle one:
//! the prefix, which holds no `>`; the leading term; the suffix. So a step touches what it changes and little else.
//! The prefix's open calls are a stack, and so are the call brackets of the suffix, as distances from the end:
//! nothing that was read or built is read again to find the next leading term.

mod building;
mod bytes;
mod check;
mod classes;
mod matching;
mod names;
mod reading;
mod sentence;
mod variables;

use bytes::*;
use check::{Index, Place, NONE};
use matching::{Argument, Matcher};
pub use reading::{read, Reading};
use sentence::{Compiled, Right};
use std::cell::RefCell;

pub const DONE: u8 = 0;
pub const PAUSED: u8 = 1;
pub const NO_MATCH: u8 = 2;
pub const NO_FUNCTION: u8 = 3;
pub const NO_ROOM: u8 = 4;
pub const BAD_SIZES: u8 = 5;
pub const BAD_PROGRAM: u8 = 6;
pub const BAD_FIELD: u8 = 7;
pub const BAD_TEXT: u8 = 8;

const LONGEST: usize = 65_536;

#[derive(Clone, Copy, Debug, PartialEq)]
pub struct Answer {
    pub code: u8,
    pub steps: u32,
    pub used: usize,
    pub place: usize,
}

/// The offset of the first bad element, if one is bad.
pub fn check_program(bytes: &[u8]) -> Option<usize> {
    check::program(bytes, &mut Index::new()).err()
}

/// The offset of the first bad element, if one is bad.
pub fn check_field(bytes: &[u8]) -> Option<usize> {
    check::field(bytes, &mut Vec::new(), &mut Vec::new()).err()
}

/// Everything a run needs besides the buffers; it is kept for the next run, emptied but not given back.
struct Work {
    index: Index,
    compiled: Compiled,
    matcher: Matcher,
    plan: building::Plan,
    /// Where the calls that are open in the prefix begin.
    calls: Vec<u32>,
    /// The call brackets of the suffix, the first on top.
    brackets: Vec<u32>,
}

impl Work {
    fn new() -> Work {
        Work {
            index: Index::new(),
            compiled: Compiled::default(),
            matcher: Matcher::default(),
            plan: building::Plan::default(),
            calls: Vec::new(),
            brackets: Vec::new(),
        }
    }
}

thread_local! {
    static WORK: RefCell<Work> = RefCell::new(Work::new());
}

pub fn run(program: &[u8], field: &mut [u8], used: usize, scratch: &mut [u8], budget: u32) -> Answer {
    let too_long = program.len() > LONGEST || field.len() > LONGEST || scratch.len() > LONGEST;
    if too_long || used > field.len() || scratch.len() < field.len() {
        return Answer { code: BAD_SIZES, steps: 0, used, place: 0 };
    }
    let answer = WORK.with_borrow_mut(|work| match refusal(program, &field[..used], work) {
        Some((code, place)) => Answer { code, steps: 0, used, place },
        None => Machine::new(program, field, scratch, work).run(used, budget),
    });
    scratch.fill(0);
    answer
}

/// The code and the place, if the program or the field is bad.
fn refusal(program: &[u8], field: &[u8], work: &mut Work) -> Option<(u8, usize)> {
    if let Err(place) = check::program(program, &mut work.index) {
        return Some((BAD_PROGRAM, place));
    }
    let bad = check::field(field, &mut work.brackets, &mut work.calls);
    bad.err().map(|place| (BAD_FIELD, place))
}

/// The leading term's place in the buffer, and its function if there is one.
#[derive(Clone, Copy, Default)]
struct Term {
    start: usize,
    end: usize,
    function: Option<u16>,
}

struct Machine<'a> {
    program: &'a [u8],
    field: &'a mut [u8],
    scratch: &'a mut [u8],
    work: &'a mut Work,
    /// Where the prefix ends, and where the suffix begins.
    prefix: usize,
    suffix: usize,
    term: Term,
}

impl<'a> Machine<'a> {
    fn new(program: &'a [u8], field: &'a mut [u8], scratch: &'a mut [u8], work: &'a mut Work) -> Machine<'a> {
        work.compiled.clear();
        work.calls.clear();
        Machine { program, field, scratch, work, prefix: 0, suffix: 0, term: Term::default() }
    }

    fn run(mut self, used: usize, budget: u32) -> Answer {
        let (mut code, mut steps) = (DONE, 0);
        if self.work.brackets.is_empty() || budget == 0 {
            code = if self.work.brackets.is_empty() { DONE } else { PAUSED };
            self.field[used..].fill(0);
            return Answer { code, steps, used, place: 0 };
        }
        self.first_leading_term(used);
        while steps < budget {
            match self.step() {
                Err(stop) => {
                    code = stop;
                    break;
                }
                Ok(goes_on) => {
                    steps += 1;
                    if !goes_on {
                        return self.close_gaps(DONE, steps, 0);
                    }
                    code = PAUSED;
                }
            }
        }
        let place = if code == PAUSED { 0 } else { self.prefix };
        self.close_gaps(code, steps, place)
    }

    /// Puts what follows the leading term at the buffer's end.
    fn first_leading_term(&mut self, used: usize) {
        let mut start = 0;
        let end = loop {
            let bracket = self.work.brackets.pop().expect("a call is there");
            let at = used - bracket as usize / 2;
            if bracket % 2 == 1 {
                break at + 1;
            }
            self.work.calls.push(at as u32);
            start = at;
        };
        self.work.calls.pop();
        self.suffix = self.field.len() - (used - end);
        self.field.copy_within(end..used, self.suffix);
        self.prefix = start;
        self.term = Term { start, end, function: self.work.index.find(number(self.field, start)) };
    }

    /// One step, if no answer prevents it; whether there is a leading term after it.
    #[inline(always)]
    fn step(&mut self) -> Result<bool, u8> {
        let function = self.term.function.ok_or(NO_FUNCTION)?;
        let right = self.choose(function).ok_or(NO_MATCH)?;
        let lengths = self.lengths(&right);
        if lengths.iter().sum::<usize>() > self.suffix - self.prefix {
            return Err(NO_ROOM);
        }
        Ok(self.replace(right, lengths))
    }

    /// The right side of the function's first sentence that fits.
    #[inline(always)]
    fn choose(&mut self, function: u16) -> Option<Right> {
        let Work { index, compiled: known, matcher, .. } = &mut *self.work;
        let (start, end) = (self.term.start + 3, self.term.end - 1);
        let argument = Argument { program: self.program, field: self.field, start, end };
        matcher.forget();
        for which in index.sentences_of(function) {
            let Place { left, mut compiled } = index.sentences[which];
            if compiled == NONE {
                // A sentence whose first element does not fit need not be compiled.
                if !argument.may_begin(left as usize) {
                    continue;
                }
                compiled = known.add(self.program, left as usize, index);
                index.sentences[which].compiled = compiled;
            }
            let left = &known.lefts[compiled as usize];
            if argument.may_fit(left) && matcher.fits(argument, &known.parts[left.parts as usize..]) {
                return Some(known.rights[compiled as usize]);
            }
        }
        None
    }

    /// The field in one part again, zeros after it.
    fn close_gaps(self, code: u8, steps: u32, place: usize) -> Answer {
        let Term { start, end, .. } = self.term;
        self.field.copy_within(start..end, self.prefix);
        let after = self.prefix + end - start;
        self.field.copy_within(self.suffix.., after);
        let used = after + self.field.len() - self.suffix;
        self.field[used..].fill(0);
        Answer { code, steps, used, place }
    }
}
