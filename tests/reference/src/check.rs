//! The bad element: where a program or a field first breaks the rules, and why.

use crate::element::*;

/// Reasons by request Three's numbers, of several the lowest; each is tried in rising order.
const UNKNOWN: u8 = 1;
const CUT_SHORT: u8 = 2;
const CANNOT_STAND: u8 = 3;
const VARIABLE_NUMBER: u8 = 4;
const BRACKETS: u8 = 5;
const LIMIT: u8 = 6;
const ABSENT: u8 = 7;
const EARLY_END: u8 = 9;

pub struct Fault {
    pub place: usize,
    pub reason: u8,
}

pub fn bad_program(bytes: &[u8]) -> Option<usize> {
    first_fault(bytes, Spot::Outside).map(|fault| fault.place)
}

pub fn bad_field(bytes: &[u8]) -> Option<usize> {
    first_fault(bytes, Spot::Field).map(|fault| fault.place)
}

/// Where the reader stands; a field is read from `Field`, a program from `Outside`.
#[derive(Clone, Copy, PartialEq)]
pub enum Spot {
    Field,
    Outside,
    Left,
    Right,
    AfterProgram,
}

/// What the elements before this one have left behind.
pub struct Reading {
    spot: Spot,
    sentences: usize,
    count: usize,
    variables: Vec<(u8, u8)>,
    open: Vec<u8>,
}

pub fn first_fault(bytes: &[u8], spot: Spot) -> Option<Fault> {
    let mut reading = Reading::new(spot);
    let mut place = 0;
    while place < bytes.len() {
        match reading.element(&bytes[place..]) {
            Ok(element) => place += element.len(),
            Err(reason) => return Some(Fault { place, reason }),
        }
    }
    (!reading.is_whole()).then_some(Fault { place, reason: EARLY_END })
}

impl Reading {
    pub fn new(spot: Spot) -> Reading {
        Reading { spot, sentences: 0, count: 0, variables: Vec::new(), open: Vec::new() }
    }

    pub fn spot(&self) -> Spot {
        self.spot
    }

    /// Whether the bytes may end here.
    pub fn is_whole(&self) -> bool {
        self.spot == Spot::AfterProgram || self.spot == Spot::Field && self.open.is_empty()
    }

    /// Reads one element if it is good, given those before it.
    pub fn element<'a>(&mut self, rest: &'a [u8]) -> Result<&'a [u8], u8> {
        let body = body_length(rest[0]).ok_or(UNKNOWN)?;
        let element = rest.get(..1 + body).ok_or(CUT_SHORT)?;
        match self.fault(element) {
            Some(reason) => Err(reason),
            None => {
                self.take(element);
                Ok(element)
            }
        }
    }

    fn can_stand(&self, kind: u8) -> bool {
        match self.spot {
            Spot::Field => kind <= END_CALL,
            Spot::Outside => kind == HEADER || kind == END_PROGRAM,
            // An end of function stands where a sentence would begin, after one sentence at least.
            Spot::Left if kind == END_FUNCTION => self.count == 0 && self.sentences > 0,
            Spot::Left => is_symbol(kind) || is_variable(kind) || matches!(kind, OPEN | CLOSE | EQUALS),
            Spot::Right => kind <= E || kind == END_SENTENCE,
            Spot::AfterProgram => false,
        }
    }

    fn fault(&self, element: &[u8]) -> Option<u8> {
        let kind = element[0];
        let unfit = match kind {
            CLOSE => self.open.last() != Some(&OPEN),
            END_CALL => self.open.last() != Some(&CALL),
            EQUALS | END_SENTENCE => !self.open.is_empty(),
            _ => false,
        };
        let full = match self.spot {
            Spot::Left => kind <= E && self.count == 100,
            Spot::Right => kind <= E && self.count == 400,
            _ => false,
        };
        let new = is_variable(kind) && self.is_new(element);
        match () {
            _ if !self.can_stand(kind) => Some(CANNOT_STAND),
            _ if is_variable(kind) && element[1] > 15 => Some(VARIABLE_NUMBER),
            _ if unfit => Some(BRACKETS),
            _ if full || new && self.spot == Spot::Left && self.variables.len() == 16 => Some(LIMIT),
            _ if new && self.spot == Spot::Right => Some(ABSENT),
            _ => None,
        }
    }

    fn is_new(&self, variable: &[u8]) -> bool {
        !self.variables.contains(&(variable[0], variable[1]))
    }

    fn take(&mut self, element: &[u8]) {
        match element[0] {
            HEADER => self.begin_left(0),
            EQUALS => (self.spot, self.count) = (Spot::Right, 0),
            END_SENTENCE => self.begin_left(self.sentences + 1),
            END_FUNCTION => self.spot = Spot::Outside,
            END_PROGRAM => self.spot = Spot::AfterProgram,
            kind => {
                self.count += 1;
                match kind {
                    OPEN | CALL => self.open.push(kind),
                    CLOSE | END_CALL => drop(self.open.pop()),
                    S | T | E if self.is_new(element) => self.variables.push((kind, element[1])),
                    _ => {}
                }
            }
        }
    }

    /// Every sentence counts its elements and variables anew.
    fn begin_left(&mut self, sentences: usize) {
        (self.spot, self.sentences, self.count) = (Spot::Left, sentences, 0);
        self.variables.clear();
    }
}
