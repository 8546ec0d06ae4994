//! A sentence compiled when it is first needed: the left side as parts to match, the right side as pieces to put down.

use super::bytes::*;
use super::check::Index;

pub const NOBODY: u8 = u8::MAX;

/// One part of a left side, and the latest search that could mend its failure; without one it fails for good.
#[derive(Clone, Copy)]
pub struct Part {
    pub what: What,
    pub blame: u8,
}

/// A number is the variable's slot: variables are numbered through by first occurrence.
#[derive(Clone, Copy)]
pub enum What {
    /// Symbols and brackets that lie side by side in the program.
    Fixed {
        from: u32,
        length: u32,
    },
    Symbol(u8),
    Term(u8),
    /// A variable met before.
    Known(u8),
    /// An e-variable that ends the argument.
    Rest(u8),
    /// An e-variable that ends a bracket's content.
    ToClose(u8),
    /// An e-variable with so many terms after it on its level.
    Before {
        slot: u8,
        terms: u8,
    },
    /// An e-variable with only fixed elements and known values between it and the end of the argument.
    Exact {
        slot: u8,
        hint: Hint,
    },
    /// An e-variable whose lengths are tried.
    Search {
        slot: u8,
        choice: u8,
        hint: Hint,
    },
    End,
}

/// What comes next: up to eight fixed bytes, and a known value after these.
#[derive(Clone, Copy)]
pub struct Hint {
    pub fixed: u64,
    pub length: u8,
    pub known: u8,
}

const NO_HINT: Hint = Hint { fixed: 0, length: 0, known: NOBODY };

/// One piece of a right side.
#[derive(Clone, Copy)]
pub enum Piece {
    Small {
        word: u64,
        length: u32,
    },
    Fixed {
        from: u32,
        length: u32,
    },
    Value(u8),
    /// Call brackets outside the first whole call are noted down.
    Call {
        word: u64,
    },
    EndCall,
}

/// The right side's parts before, in and after its first whole call, which will be the leading term.
#[derive(Clone, Copy, Default)]
pub struct Zone {
    pub first: u32,
    pub last: u32,
    /// Bytes besides the values.
    pub fixed: u32,
}

/// A left side: its parts, and the fixed bytes at its ends.
pub struct Left {
    pub parts: u32,
    /// The left side's fixed first bytes, and which of them there are.
    pub head: u64,
    pub head_mask: u64,
    /// Its fixed right end, in the program; empty where nothing is tried.
    pub tail: u32,
    pub tail_length: u32,
}

#[derive(Clone, Copy, Default)]
pub struct Right {
    pub zones: [Zone; 3],
    /// Whether there is a whole call, and the function that it calls.
    pub calls: bool,
    pub function: Option<u16>,
}

/// All that is compiled; sentences refer into it.
#[derive(Default)]
pub struct Compiled {
    pub lefts: Vec<Left>,
    pub rights: Vec<Right>,
    pub parts: Vec<Part>,
    pub pieces: Vec<Piece>,
    /// For each part of the left side at hand, the searches it depends on.
    needs: Vec<u16>,
    /// What the place depended on before each open bracket.
    levels: Vec<(u16, u16)>,
}

impl Compiled {
    pub fn clear(&mut self) {
        self.lefts.clear();
        self.rights.clear();
        self.parts.clear();
        self.pieces.clear();
    }

    /// Compiles the sentence that begins here and hands its number back.
    pub fn add(&mut self, program: &[u8], left: usize, index: &Index) -> u32 {
        let first = self.parts.len();
        self.needs.clear();
        let mut reader = LeftReader::new(program, left, self);
        reader.read();
        let (slots, right) = (reader.slots, reader.at + 1);
        let parts = &mut self.parts[first..];
        give_blame(parts, &self.needs);
        give_hints(parts, program);
        self.lefts.push(Left::new(first, parts, program));
        self.rights.push(Right::read(program, right, &slots, &mut self.pieces, index));
        self.rights.len() as u32 - 1
    }
}

/// Reads a left side. A mask has a bit for each search; `worth` holds what a variable's value depends on.
struct LeftReader<'a> {
    program: &'a [u8],
    at: usize,
    compiled: &'a mut Compiled,
    slots: [u8; 48],
    worth: [u16; 16],
    count: u8,
    searches: u8,
    /// What the place depends on: by its own level, and by the levels around.
    here: u16,
    around: u16,
}

/// What stands between an e-variable and the end of its level.
#[derive(Default)]
struct Ahead {
    terms: u8,
    elements: bool,
    other_e: bool,
    known_lengths: bool,
    itself: bool,
    worth: u16,
}

#[inline(always)]
fn variable(program: &[u8], at: usize) -> usize {
    usize::from(16 * (program[at] - S) + program[at + 1])
}

impl<'a> LeftReader<'a> {
    fn new(program: &'a [u8], at: usize, compiled: &'a mut Compiled) -> LeftReader<'a> {
        let (slots, worth) = ([NOBODY; 48], [0; 16]);
        LeftReader { program, at, compiled, slots, worth, count: 0, searches: 0, here: 0, around: 0 }
    }

    fn part(&mut self, what: What, needs: u16) {
        self.compiled.parts.push(Part { what, blame: NOBODY });
        self.compiled.needs.push(needs);
    }

    fn read(&mut self) {
        loop {
            match self.program[self.at] {
                EQUALS => break,
                S..=E => self.variable(),
                kind => self.fixed(kind),
            }
        }
        self.part(What::End, self.here | self.around);
    }

    fn fixed(&mut self, kind: u8) {
        let (from, length) = (self.at as u32, length(kind) as u32);
        let needs = self.here | self.around;
        match self.compiled.parts.last_mut() {
            Some(Part { what: What::Fixed { length: before, .. }, .. }) => *before += length,
            _ => self.part(What::Fixed { from, length }, needs),
        }
        if kind == OPEN {
            self.compiled.levels.push((self.here, self.around));
            (self.here, self.around) = (0, needs);
        }
        if kind == CLOSE {
            (self.here, self.around) = self.compiled.levels.pop().expect("brackets are balanced");
        }
        self.at += length as usize;
    }

    fn variable(&mut self) {
        let (kind, which) = (self.program[self.at], variable(self.program, self.at));
        let depends = self.here | self.around;
        self.at += 2;
        if self.slots[which] != NOBODY {
            let slot = self.slots[which];
            // What comes after a known value stands nearer or farther as that value does.
            self.around |= self.worth[usize::from(slot)];
            return self.part(What::Known(slot), self.here | self.around);
        }
        let slot = self.count;
        self.count += 1;
        self.slots[which] = slot;
        self.worth[usize::from(slot)] = depends;
        match kind {
            S => self.part(What::Symbol(slot), depends),
            E => self.expression(slot, which),
            _ => self.part(What::Term(slot), depends),
        }
    }

    /// A new e-variable. Its longer values only bring the next place nearer to the end of the level.
    fn expression(&mut self, slot: u8, which: usize) {
        let ahead = self.look_ahead(which);
        let top = self.compiled.levels.is_empty();
        let own = usize::from(slot);
        if !ahead.elements {
            self.part(if top { What::Rest(slot) } else { What::ToClose(slot) }, 0);
            self.here = 0;
        } else if top && ahead.known_lengths {
            let by_place = if ahead.itself { self.here } else { 0 };
            self.here = ahead.worth | by_place;
            self.part(What::Exact { slot, hint: NO_HINT }, self.here | self.around);
        } else if !ahead.other_e {
            self.part(What::Before { slot, terms: ahead.terms }, self.around);
            self.here = 0;
        } else {
            let choice = self.searches;
            self.searches += 1;
            self.part(What::Search { slot, choice, hint: NO_HINT }, self.around);
            self.here = 1 << choice;
            self.worth[own] |= self.here;
        }
    }

    fn look_ahead(&self, which: usize) -> Ahead {
        let mut ahead = Ahead { known_lengths: true, ..Ahead::default() };
        let (mut at, mut depth) = (self.at, 0);
        loop {
            let kind = self.program[at];
            if kind == EQUALS || kind == CLOSE && depth == 0 {
                return ahead;
            }
            ahead.elements = true;
            ahead.terms += u8::from(depth == 0);
            match kind {
                OPEN => depth += 1,
                CLOSE => depth -= 1,
                S..=E => ahead.variable(variable(self.program, at), which, depth, self),
                _ => {}
            }
            at += if kind >= S { 2 } else { length(kind) };
        }
    }
}

impl Ahead {
    fn variable(&mut self, met: usize, which: usize, depth: usize, reader: &LeftReader) {
        let slot = reader.slots[met];
        self.known_lengths &= slot != NOBODY;
        self.itself |= met == which;
        // A repeated e-value has no known number of terms either.
        self.other_e |= met >= 32 && depth == 0;
        if slot != NOBODY && met != which {
            self.worth |= reader.worth[usize::from(slot)];
        }
    }
}

/// A failure is laid to the latest search it depends on; a search that gives up, to the latest before it
/// that anything from there on depends on.
fn give_blame(parts: &mut [Part], needs: &[u16]) {
    let mut later = 0;
    for (part, need) in parts.iter_mut().zip(needs).rev() {
        later |= need;
        let mask = match part.what {
            What::Search { choice, .. } => later & ((1 << choice) - 1),
            _ => *need,
        };
        part.blame = if mask == 0 { NOBODY } else { mask.ilog2() as u8 };
    }
}

fn give_hints(parts: &mut [Part], program: &[u8]) {
    for which in 0..parts.len() {
        let mut next = hint(&parts[which + 1..], program);
        match &mut parts[which].what {
            What::Exact { hint, .. } => *hint = next,
            What::Search { slot, hint, .. } => {
                // Its own value is still growing.
                next.known = if next.known == *slot { NOBODY } else { next.known };
                *hint = next;
            }
            _ => {}
        }
    }
}

fn hint(next: &[Part], program: &[u8]) -> Hint {
    let mut hint = NO_HINT;
    let mut next = next.iter();
    let mut part = next.next();
    if let Some(Part { what: What::Fixed { from, length }, .. }) = part {
        hint.length = (*length).min(8) as u8;
        hint.fixed = word(program, *from as usize) & mask(usize::from(hint.length));
        part = next.next();
    }
    match part {
        Some(Part { what: What::Known(slot), .. }) if hint.length < 8 => hint.known = *slot,
        _ => {}
    }
    hint
}

impl Left {
    fn new(first: usize, parts: &[Part], program: &[u8]) -> Left {
        let mut left = Left { parts: first as u32, head: 0, head_mask: 0, tail: 0, tail_length: 0 };
        if let What::Fixed { from, length } = parts[0].what {
            left.head_mask = mask(length as usize);
            left.head = word(program, from as usize) & left.head_mask;
        }
        let tried = |part: &Part| matches!(part.what, What::Search { .. } | What::Before { .. } | What::Exact { .. });
        // The last part is the end.
        if let [.., Part { what: What::Fixed { from, length }, .. }, _] = parts {
            if parts.iter().any(tried) {
                (left.tail, left.tail_length) = (*from, *length);
            }
        }
        left
    }
}

impl Right {
    /// The right side in three zones; without a whole call it is all one.
    fn read(program: &[u8], right: usize, slots: &[u8; 48], pieces: &mut Vec<Piece>, index: &Index) -> Right {
        let (call, end) = first_whole_call(program, right);
        let (start, after) = call.unwrap_or((end, end));
        let mut zone = |from, to, noted| read_zone(&program[..to], from, noted, slots, pieces);
        let zones = [zone(right, start, true), zone(start, after, false), zone(after, end, true)];
        let function = call.and_then(|(start, _)| index.find(number(program, start)));
        Right { zones, calls: call.is_some(), function }
    }
}

/// The first call that holds no other, and where the right side ends.
fn first_whole_call(program: &[u8], right: usize) -> (Option<(usize, usize)>, usize) {
    let (mut call, mut latest, mut at) = (None, right, right);
    loop {
        let kind = program[at];
        match kind {
            END_SENTENCE => return (call, at),
            CALL => latest = at,
            END_CALL if call.is_none() => call = Some((latest, at + 1)),
            _ => {}
        }
        at += if kind >= S { 2 } else { length(kind) };
    }
}

/// The pieces of a part of the right side; call brackets that are noted are pieces of their own.
fn read_zone(program: &[u8], from: usize, noted: bool, slots: &[u8; 48], pieces: &mut Vec<Piece>) -> Zone {
    let (mut at, mut start) = (from, from);
    let mut zone = Zone { first: pieces.len() as u32, last: 0, fixed: 0 };
    while let Some(&kind) = program.get(at) {
        let next = at + if kind >= S { 2 } else { length(kind) };
        let alone = match kind {
            CALL if noted => Some(Piece::Call { word: word(program, at) & mask(3) }),
            END_CALL if noted => Some(Piece::EndCall),
            S..=E => Some(Piece::Value(slots[variable(program, at)])),
            _ => None,
        };
        if let Some(piece) = alone {
            fixed_piece(program, start, at, pieces);
            pieces.push(piece);
            start = next;
        }
        zone.fixed += if kind >= S { 0 } else { (next - at) as u32 };
        at = next;
    }
    fixed_piece(program, start, at, pieces);
    zone.last = pieces.len() as u32;
    zone
}

fn fixed_piece(program: &[u8], from: usize, to: usize, pieces: &mut Vec<Piece>) {
    let length = to - from;
    match length {
        0 => {}
        1..=8 => pieces.push(Piece::Small { word: word(program, from) & mask(length), length: length as u32 }),
        _ => pieces.push(Piece::Fixed { from: from as u32, length: length as u32 }),
    }
}
