//! The checks, each in one pass: the program's notes down where sentences begin, the field's its call brackets.

use super::bytes::*;

pub const NONE: u32 = u32::MAX;
const NO_FUNCTION: u16 = u16::MAX;
const LONGEST_LEFT: usize = 100;
const LONGEST_RIGHT: usize = 400;
const MOST_VARIABLES: usize = 16;

/// Where a sentence begins, and its compiled form once it has one.
#[derive(Clone, Copy)]
pub struct Place {
    pub left: u32,
    pub compiled: u32,
}

/// The functions by name; a page holds the 256 names with one high byte, so that few names need little clearing.
pub struct Index {
    pub sentences: Vec<Place>,
    /// Where each function's sentences begin among all; one more entry ends the last.
    firsts: Vec<u32>,
    page_of: [u16; 256],
    pages: Vec<[u16; 256]>,
}

impl Index {
    pub fn new() -> Index {
        Index { sentences: Vec::new(), firsts: Vec::new(), page_of: [NO_FUNCTION; 256], pages: Vec::new() }
    }

    fn clear(&mut self) {
        self.sentences.clear();
        self.firsts.clear();
        self.page_of.fill(NO_FUNCTION);
        self.pages.clear();
    }

    /// Where two functions have one name, the earlier is used.
    fn enter(&mut self, name: u16) {
        let [low, high] = name.to_le_bytes().map(usize::from);
        if self.page_of[high] == NO_FUNCTION {
            self.page_of[high] = self.pages.len() as u16;
            self.pages.push([NO_FUNCTION; 256]);
        }
        let entry = &mut self.pages[usize::from(self.page_of[high])][low];
        if *entry == NO_FUNCTION {
            *entry = self.firsts.len() as u16;
        }
        self.firsts.push(self.sentences.len() as u32);
    }

    /// The number of the function with this name.
    #[inline(always)]
    pub fn find(&self, name: u16) -> Option<u16> {
        let [low, high] = name.to_le_bytes().map(usize::from);
        let page = self.pages.get(usize::from(self.page_of[high]))?;
        Some(page[low]).filter(|function| *function != NO_FUNCTION)
    }

    #[inline(always)]
    pub fn sentences_of(&self, function: u16) -> std::ops::Range<usize> {
        let function = usize::from(function);
        self.firsts[function] as usize..self.firsts[function + 1] as usize
    }
}

/// Reads a program; the error is the first bad element's place, which is where reading stood in every case.
pub fn program(bytes: &[u8], index: &mut Index) -> Result<(), usize> {
    index.clear();
    let mut at = 0;
    let mut depths = [0; LONGEST_RIGHT + 1];
    loop {
        match bytes.get(at) {
            Some(&HEADER) if at + 3 <= bytes.len() => {
                index.enter(number(bytes, at));
                at = function(bytes, at + 3, &mut index.sentences, &mut depths)?;
            }
            Some(&END_PROGRAM) => break,
            _ => return Err(at),
        }
    }
    index.firsts.push(index.sentences.len() as u32);
    if at + 1 < bytes.len() {
        return Err(at + 1);
    }
    Ok(())
}

/// One sentence or more, and the end of the function.
fn function(bytes: &[u8], mut at: usize, sentences: &mut Vec<Place>, depths: &mut Depths) -> Result<usize, usize> {
    loop {
        sentences.push(Place { left: at as u32, compiled: NONE });
        let (right, variables) = left_side(bytes, at)?;
        at = right_side(bytes, right, variables, depths)?;
        if bytes.get(at) == Some(&END_FUNCTION) {
            return Ok(at + 1);
        }
    }
}

/// A bit for each variable; 0 where the number is too large or cut off.
#[inline(always)]
fn variable(bytes: &[u8], at: usize) -> u64 {
    match bytes.get(at + 1) {
        Some(number @ 0..=15) => 1 << (16 * (bytes[at] - S) + number),
        _ => 0,
    }
}

fn left_side(bytes: &[u8], mut at: usize) -> Result<(usize, u64), usize> {
    let (mut depth, mut variables, mut different, mut count) = (0, 0u64, 0, 0);
    loop {
        let kind = *bytes.get(at).ok_or(at)?;
        let next = match kind {
            CHARACTER..=MACRODIGIT => at + length(kind),
            S..=E => {
                let bit = variable(bytes, at);
                different += usize::from(variables & bit == 0);
                if bit == 0 || different > MOST_VARIABLES {
                    return Err(at);
                }
                variables |= bit;
                at + 2
            }
            OPEN => {
                depth += 1;
                at + 1
            }
            CLOSE if depth > 0 => {
                depth -= 1;
                at + 1
            }
            EQUALS if depth == 0 => return Ok((at + 1, variables)),
            _ => return Err(at),
        };
        if next > bytes.len() || count == LONGEST_LEFT {
            return Err(at);
        }
        count += 1;
        at = next;
    }
}

/// How many brackets were open when each open call of a right side began; lent, so that nobody clears it.
type Depths = [u32; LONGEST_RIGHT + 1];

fn right_side(bytes: &[u8], mut at: usize, variables: u64, depths: &mut Depths) -> Result<usize, usize> {
    let (mut open, mut calls, mut count) = (Open::new(), 0, 0);
    loop {
        let kind = *bytes.get(at).ok_or(at)?;
        let next = match kind {
            CHARACTER..=MACRODIGIT => at + length(kind),
            S..=E if variables & variable(bytes, at) != 0 => at + 2,
            OPEN | CLOSE if open.bracket(kind) => at + 1,
            CALL => {
                depths[calls] = open.depth;
                calls += 1;
                open.depth = 0;
                at + 3
            }
            END_CALL if open.depth == 0 && calls > 0 => {
                calls -= 1;
                open.depth = depths[calls];
                at + 1
            }
            END_SENTENCE if open.depth == 0 && calls == 0 => return Ok(at + 1),
            _ => return Err(at),
        };
        if next > bytes.len() || count == LONGEST_RIGHT {
            return Err(at);
        }
        count += 1;
        at = next;
    }
}

/// The brackets open since the latest open call; within a call none outside it can be closed.
struct Open {
    depth: u32,
}

impl Open {
    fn new() -> Open {
        Open { depth: 0 }
    }

    /// Takes ( or ), if it can stand here.
    #[inline(always)]
    fn bracket(&mut self, kind: u8) -> bool {
        let fits = kind == OPEN || self.depth > 0;
        self.depth = if kind == OPEN { self.depth + 1 } else { self.depth.wrapping_sub(1) };
        fits
    }
}

/// A call bracket after the place of work: twice its distance from the end, one more for a closing one.
pub fn bracket(distance: usize, closing: bool) -> u32 {
    2 * distance as u32 + u32::from(closing)
}

/// On over characters; the last may be cut short, and is left to be read by itself then.
#[inline(always)]
fn past_characters(bytes: &[u8], at: usize) -> usize {
    let far = skip_characters(bytes, at, 0);
    if far > bytes.len() {
        far - 2
    } else {
        far.max(at + 2)
    }
}

/// Reads a field; notes its call brackets, the last one first, so that they are a stack with the first on top.
pub fn field(bytes: &[u8], brackets: &mut Vec<u32>, depths: &mut Vec<u32>) -> Result<(), usize> {
    brackets.clear();
    depths.clear();
    let (mut open, mut at) = (Open::new(), 0);
    while at < bytes.len() {
        let kind = bytes[at];
        let next = match kind {
            CHARACTER => past_characters(bytes, at),
            2..=MACRODIGIT => at + length(kind),
            OPEN | CLOSE if open.bracket(kind) => at + 1,
            CALL => {
                depths.push(open.depth);
                open.depth = 0;
                brackets.push(bracket(bytes.len() - at, false));
                at + 3
            }
            END_CALL if open.depth == 0 && !depths.is_empty() => {
                open.depth = depths.pop().expect("a call is open");
                brackets.push(bracket(bytes.len() - at, true));
                at + 1
            }
            _ => return Err(at),
        };
        if next > bytes.len() {
            return Err(at);
        }
        at = next;
    }
    if open.depth > 0 || !depths.is_empty() {
        return Err(at);
    }
    brackets.reverse();
    Ok(())
}
