//! A right side put in the leading term's place: values that keep their place are left there, the others move once.

use super::bytes::*;
use super::check::{bracket, NONE};
use super::matching::Values;
use super::sentence::{Piece, Right, Zone};
use super::{Machine, Term};

/// Values up to this length are taken out in a word, before anything is written.
const SMALL: usize = 8;
/// A leading term up to this length is put wherever there is room.
const SHORT: usize = 64;

/// Bytes on their way from one place to another.
#[derive(Clone, Copy)]
struct Move {
    to: usize,
    from: usize,
    length: usize,
}

/// What is to be written, listed before the first byte is; it is lent from step to step.
#[derive(Default)]
pub struct Plan {
    small: Vec<(usize, u64, usize)>,
    fixed: Vec<Move>,
    moves: Vec<Move>,
    /// Further occurrences of a value, copied from its first.
    again: Vec<Move>,
    placed: [u32; 16],
    /// Whether the moves keep the order in which they lay; then none runs into another.
    ordered: bool,
    latest: usize,
}

impl Plan {
    fn clear(&mut self) {
        self.small.clear();
        self.fixed.clear();
        self.moves.clear();
        self.again.clear();
        self.placed = [NONE; 16];
        (self.ordered, self.latest) = (true, 0);
    }

    #[inline(always)]
    fn take(&mut self, field: &[u8], to: usize, from: usize, length: usize) {
        if length <= SMALL {
            self.small.push((to, word(field, from), length));
        } else {
            self.relocate(to, from, length);
        }
    }

    fn relocate(&mut self, to: usize, from: usize, length: usize) {
        if to != from {
            self.ordered &= from >= self.latest;
            self.latest = from + length;
            self.moves.push(Move { to, from, length });
        }
    }

    #[inline(always)]
    fn value(&mut self, field: &[u8], to: usize, slot: u8, values: &Values) {
        let (from, length) = (values.start(slot), values.length(slot));
        if length <= SMALL {
            return self.small.push((to, word(field, from), length));
        }
        let placed = &mut self.placed[usize::from(slot & 15)];
        if *placed == NONE {
            *placed = to as u32;
            self.relocate(to, from, length);
        } else if *placed as usize != to {
            self.again.push(Move { to, from: *placed as usize, length });
        }
    }

    fn write(&self, program: &[u8], field: &mut [u8], scratch: &mut [u8]) {
        match self.ordered {
            true => self.write_in_order(field),
            false => self.write_by_scratch(field, scratch),
        }
        self.again.iter().for_each(|go| field.copy_within(go.from..go.from + go.length, go.to));
        for go in &self.fixed {
            field[go.to..go.to + go.length].copy_from_slice(&program[go.from..go.from + go.length]);
        }
        self.small.iter().for_each(|(to, word, length)| store(field, *to, *word, *length));
    }

    /// First what moves left, from left to right, then what moves right, from right to left: none lands on another.
    #[inline(always)]
    fn write_in_order(&self, field: &mut [u8]) {
        for go in self.moves.iter().filter(|go| go.to < go.from) {
            field.copy_within(go.from..go.from + go.length, go.to);
        }
        for go in self.moves.iter().rev().filter(|go| go.to > go.from) {
            field.copy_within(go.from..go.from + go.length, go.to);
        }
    }

    #[cold]
    fn write_by_scratch(&self, field: &mut [u8], scratch: &mut [u8]) {
        let mut at = 0;
        for go in &self.moves {
            scratch[at..at + go.length].copy_from_slice(&field[go.from..go.from + go.length]);
            at += go.length;
        }
        at = 0;
        for go in &self.moves {
            field[go.to..go.to + go.length].copy_from_slice(&scratch[at..at + go.length]);
            at += go.length;
        }
    }
}

/// The longest value of the next leading term, and how far into the term it stands.
#[derive(Clone, Copy)]
struct Anchor {
    slot: u8,
    from: usize,
    into: usize,
    length: usize,
}

/// Where the next leading term comes from when the right side has none.
#[derive(Clone, Copy, Default)]
struct Around {
    /// The length taken off the prefix's end, from its `<` on.
    before: usize,
    /// The length of the suffix that goes to the prefix.
    passed: usize,
    /// The length of the suffix up to the `>`, after what is passed.
    after: usize,
}

const ITSELF: u8 = u8::MAX;

impl Machine<'_> {
    /// The lengths of the right side's three zones.
    #[inline(always)]
    pub fn lengths(&self, right: &Right) -> [usize; 3] {
        right.zones.map(|zone| {
            let values = self.pieces(zone).iter().map(|piece| match piece {
                Piece::Value(slot) => self.work.matcher.values.length(*slot),
                _ => 0,
            });
            zone.fixed as usize + values.sum::<usize>()
        })
    }

    #[inline(always)]
    fn pieces(&self, zone: Zone) -> &[Piece] {
        &self.work.compiled.pieces[zone.first as usize..zone.last as usize]
    }

    /// Puts the right side in; whether there is a leading term then.
    pub fn replace(&mut self, right: Right, lengths: [usize; 3]) -> bool {
        self.work.plan.clear();
        match right.calls {
            true => self.replace_by_call(right, lengths),
            false => return self.replace_by_passive(right, lengths[0]),
        }
        true
    }

    /// The right side's first whole call is the next leading term.
    fn replace_by_call(&mut self, right: Right, [before, length, after]: [usize; 3]) {
        let (low, high) = (self.prefix + before, self.suffix - after - length);
        let anchor = self.anchor(right.zones[1]);
        let start = self.settle(anchor, low, high, length);
        self.put(right.zones[0], self.prefix);
        self.put(right.zones[1], start);
        let noted = self.work.brackets.len();
        self.put_after(right.zones[2], self.suffix - after);
        // The first of these is to be on top.
        self.work.brackets[noted..].reverse();
        self.write();
        self.prefix = low;
        self.suffix -= after;
        self.term = Term { start, end: start + length, function: right.function };
    }

    /// The right side is passive: the next leading term is around it, or after it, or there is none.
    fn replace_by_passive(&mut self, right: Right, length: usize) -> bool {
        let Some(around) = self.next_around(length) else {
            self.put(right.zones[0], self.prefix);
            self.write();
            self.prefix += length;
            (self.term.start, self.term.end) = (self.prefix, self.prefix);
            return false;
        };
        match around.before {
            0 => self.take_later(right.zones[0], length, around),
            _ => self.take_around(right.zones[0], length, around),
        }
        self.write();
        let name = number(self.field, self.term.start);
        self.term.function = self.work.index.find(name);
        true
    }

    /// Pops call brackets up to the next `>`; what opens on the way goes to the open calls, save the latest.
    fn next_around(&mut self, length: usize) -> Option<Around> {
        let room = self.field.len();
        let mut around = Around::default();
        let mut latest = None;
        loop {
            let bracket = self.work.brackets.pop()?;
            let at = room - bracket as usize / 2;
            if bracket % 2 == 1 {
                around.after = at + 1 - self.suffix - around.passed;
                break;
            }
            if let Some(open) = latest.replace(at) {
                self.work.calls.push((self.prefix + length + open - self.suffix) as u32);
            }
            around.passed = at - self.suffix;
        }
        if latest.is_none() {
            let call = self.work.calls.pop().expect("every > has its <");
            around.before = self.prefix - call as usize;
        }
        Some(around)
    }

    /// The next leading term lies in the suffix as it is, and what stands before it joins the prefix.
    fn take_later(&mut self, zone: Zone, length: usize, around: Around) {
        let (suffix, prefix) = (self.suffix, self.prefix);
        self.put(zone, prefix);
        self.work.plan.take(self.field, prefix + length, suffix, around.passed);
        self.prefix = prefix + length + around.passed;
        self.suffix = suffix + around.passed + around.after;
        (self.term.start, self.term.end) = (suffix + around.passed, self.suffix);
    }

    /// The next leading term begins in the prefix, goes on with the right side and ends in the suffix.
    fn take_around(&mut self, zone: Zone, length: usize, around: Around) {
        let (call, suffix) = (self.prefix - around.before, self.suffix);
        let whole = around.before + length + around.after;
        let mut anchor = self.anchor(zone);
        anchor.into += around.before;
        if around.before >= anchor.length {
            anchor = Anchor { slot: ITSELF, from: call, into: 0, length: around.before };
        }
        if around.after > anchor.length {
            anchor = Anchor { slot: ITSELF, from: suffix, into: around.before + length, length: around.after };
        }
        let start = self.settle(anchor, call, suffix + around.after - whole, whole);
        self.work.plan.take(self.field, start, call, around.before);
        self.put(zone, start + around.before);
        self.work.plan.take(self.field, start + around.before + length, suffix, around.after);
        self.prefix = call;
        self.suffix = suffix + around.after;
        (self.term.start, self.term.end) = (start, start + whole);
    }

    /// The zone's longest value; without any, the zone is best put where the prefix ends.
    #[inline(always)]
    fn anchor(&self, zone: Zone) -> Anchor {
        let values = &self.work.matcher.values;
        let mut anchor = Anchor { slot: ITSELF, from: 0, into: 0, length: 0 };
        let mut into = 0;
        for piece in self.pieces(zone) {
            into += match *piece {
                Piece::Small { length, .. } | Piece::Fixed { length, .. } => length as usize,
                Piece::Call { .. } => 3,
                Piece::EndCall => 1,
                Piece::Value(slot) => {
                    let length = values.length(slot);
                    if length > anchor.length {
                        anchor = Anchor { slot, from: values.start(slot), into, length };
                    }
                    length
                }
            };
        }
        anchor
    }

    /// Where the next leading term is to begin: so that the anchor stays, or else amid the free room.
    #[inline(always)]
    fn settle(&mut self, anchor: Anchor, low: usize, high: usize, length: usize) -> usize {
        let wanted = anchor.from.wrapping_sub(anchor.into);
        if (low..=high).contains(&wanted) && anchor.from >= anchor.into {
            if anchor.slot != ITSELF && anchor.length > SMALL {
                self.work.plan.placed[usize::from(anchor.slot)] = anchor.from as u32;
            }
            return wanted;
        }
        if length <= SHORT {
            return low;
        }
        low + (high - low) / 2
    }

    /// Plans a zone from this place on; calls that it opens are open then.
    #[inline(always)]
    fn put(&mut self, zone: Zone, mut to: usize) {
        let work = &mut *self.work;
        for piece in &work.compiled.pieces[zone.first as usize..zone.last as usize] {
            if let Piece::Call { .. } = piece {
                work.calls.push(to as u32);
            }
            to += work.plan.piece(self.field, to, piece, &work.matcher.values);
        }
    }

    /// Plans a zone of the suffix, and notes its call brackets.
    #[inline(always)]
    fn put_after(&mut self, zone: Zone, mut to: usize) {
        let work = &mut *self.work;
        let room = self.field.len();
        for piece in &work.compiled.pieces[zone.first as usize..zone.last as usize] {
            match piece {
                Piece::Call { .. } => work.brackets.push(bracket(room - to, false)),
                Piece::EndCall => work.brackets.push(bracket(room - to, true)),
                _ => {}
            }
            to += work.plan.piece(self.field, to, piece, &work.matcher.values);
        }
    }

    #[inline(always)]
    fn write(&mut self) {
        self.work.plan.write(self.program, self.field, self.scratch);
    }
}

impl Plan {
    /// Plans one piece and hands its length back.
    #[inline(always)]
    fn piece(&mut self, field: &[u8], to: usize, piece: &Piece, values: &Values) -> usize {
        match *piece {
            Piece::Small { word, length } => {
                self.small.push((to, word, length as usize));
                length as usize
            }
            Piece::Fixed { from, length } => {
                self.fixed.push(Move { to, from: from as usize, length: length as usize });
                length as usize
            }
            Piece::Value(slot) => {
                self.value(field, to, slot, values);
                values.length(slot)
            }
            Piece::Call { word } => {
                self.small.push((to, word, 3));
                3
            }
            Piece::EndCall => {
                self.small.push((to, u64::from(END_CALL), 1));
                1
            }
        }
    }
}
