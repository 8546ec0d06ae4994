//! A left side against the leading term's argument: the first assignment, with the values left where they lie.

use super::bytes::*;
use super::sentence::{Hint, Left, Part, What, NOBODY};

/// Where each variable's value lies in the field.
#[derive(Clone, Copy, Default)]
pub struct Values {
    pub starts: [u32; 16],
    pub ends: [u32; 16],
}

impl Values {
    #[inline(always)]
    fn bind(&mut self, slot: u8, start: usize, end: usize) -> usize {
        self.starts[usize::from(slot & 15)] = start as u32;
        self.ends[usize::from(slot & 15)] = end as u32;
        end
    }

    #[inline(always)]
    pub fn start(&self, slot: u8) -> usize {
        self.starts[usize::from(slot & 15)] as usize
    }

    #[inline(always)]
    pub fn length(&self, slot: u8) -> usize {
        (self.ends[usize::from(slot & 15)] - self.starts[usize::from(slot & 15)]) as usize
    }
}

/// A search that may have to go on: its part, the end of its value so far, and what has to come next.
#[derive(Clone, Copy, Default)]
struct Choice {
    part: usize,
    slot: u8,
    end: usize,
    next: u64,
    mask: u64,
}

/// The matcher's memory; it needs no clearing.
#[derive(Default)]
pub struct Matcher {
    pub values: Values,
    choices: [Choice; 16],
    /// Where the latest bracket's content begins and the bracket ends: a function's sentences often begin alike.
    bracket: (usize, usize),
}

/// The argument: from its start to its `>`.
#[derive(Clone, Copy)]
pub struct Argument<'a> {
    pub program: &'a [u8],
    pub field: &'a [u8],
    pub start: usize,
    pub end: usize,
}

impl Argument<'_> {
    /// Cheap signs that a sentence cannot fit: its fixed first bytes, and its fixed right end.
    #[inline(always)]
    pub fn may_fit(&self, left: &Left) -> bool {
        if (word(self.field, self.start) ^ left.head) & left.head_mask != 0 {
            return false;
        }
        let (tail, length) = (left.tail as usize, left.tail_length as usize);
        length == 0 || {
            let argument = &self.field[self.start..self.end];
            argument.ends_with(&self.program[tail..tail + length])
        }
    }

    /// Whether the sentence that begins here in the program could fit, by its first element.
    #[inline(always)]
    pub fn may_begin(&self, left: usize) -> bool {
        let kind = self.program[left];
        match kind {
            CHARACTER..=CLOSE => (word(self.program, left) ^ word(self.field, self.start)) & mask(length(kind)) == 0,
            EQUALS => self.start == self.end,
            _ => true,
        }
    }

    /// Equal bytes mean equal elements: no element's bytes begin another's, and no left side or value has a `>`.
    #[inline(always)]
    fn same(&self, at: usize, from: &[u8], start: usize, length: usize) -> bool {
        if length <= 8 {
            return (word(self.field, at) ^ word(from, start)) & mask(length) == 0;
        }
        self.field.get(at..at + length) == Some(&from[start..start + length])
    }
}

impl Matcher {
    /// Before the sentences of a new leading term are tried.
    pub fn forget(&mut self) {
        self.bracket = (0, 0);
    }

    #[inline(always)]
    fn close(&mut self, field: &[u8], at: usize) -> usize {
        if self.bracket.0 != at {
            self.bracket = (at, skip_to_close(field, at));
        }
        self.bracket.1 - 1
    }

    /// Whether the parts fit; then the values are those of the first assignment.
    pub fn fits(&mut self, argument: Argument, parts: &[Part]) -> bool {
        let (mut which, mut at) = (0, argument.start);
        loop {
            let part = &parts[which];
            if let What::End = part.what {
                if at == argument.end {
                    return true;
                }
            } else if let Some(on) = self.part(argument, parts, which, at) {
                at = on;
                which += 1;
                continue;
            }
            match self.go_back(argument, parts, part.blame) {
                Some((choice, on)) => (which, at) = (choice + 1, on),
                None => return false,
            }
        }
    }

    /// Matches one part at this place and hands the place after it back.
    #[inline(always)]
    fn part(&mut self, argument: Argument, parts: &[Part], which: usize, at: usize) -> Option<usize> {
        let Argument { program, field, end, .. } = argument;
        let values = &mut self.values;
        match parts[which].what {
            What::Fixed { from, length } => {
                argument.same(at, program, from as usize, length as usize).then_some(at + length as usize)
            }
            What::Symbol(slot) => {
                let kind = field[at];
                (kind <= MACRODIGIT).then(|| values.bind(slot, at, at + length(kind)))
            }
            What::Term(slot) => (!ends_level(field[at])).then(|| values.bind(slot, at, skip_term(field, at))),
            What::Known(slot) => {
                let length = values.length(slot);
                argument.same(at, field, values.start(slot), length).then_some(at + length)
            }
            What::Rest(slot) => Some(values.bind(slot, at, end)),
            What::ToClose(slot) => {
                let close = self.close(field, at);
                Some(self.values.bind(slot, at, close))
            }
            What::Before { slot, terms } => {
                let longer = count_terms(field, at).checked_sub(usize::from(terms))?;
                Some(values.bind(slot, at, skip_terms(field, at, longer)))
            }
            What::Exact { slot, hint } => self.exact(argument, slot, &parts[which + 1..], hint, at),
            What::Search { slot, choice, hint } => self.search(argument, slot, choice, hint, which, at),
            What::End => None,
        }
    }

    /// An e-value whose length in bytes follows from that of what comes after it.
    fn exact(&mut self, argument: Argument, slot: u8, later: &[Part], hint: Hint, at: usize) -> Option<usize> {
        let (mut known, mut times) = (0, 1);
        for part in later {
            match part.what {
                What::Fixed { length, .. } => known += length as usize,
                What::Known(other) if other == slot => times += 1,
                What::Known(other) => known += self.values.length(other),
                _ => break,
            }
        }
        let room = (argument.end - at).checked_sub(known)?;
        let end = at + room / times;
        self.values.bind(slot, at, end);
        let (next, mask) = self.expected(argument.field, hint);
        let fits = room % times == 0 && (word(argument.field, end) ^ next) & mask == 0;
        (fits && is_boundary(argument.field, at, end)).then_some(end)
    }

    /// What has to come next, and which bytes of it are known.
    #[inline(always)]
    fn expected(&self, field: &[u8], hint: Hint) -> (u64, u64) {
        let fixed = usize::from(hint.length);
        if hint.known == NOBODY {
            return (hint.fixed, mask(fixed));
        }
        let known = mask(self.values.length(hint.known));
        let value = word(field, self.values.start(hint.known)) & known;
        (hint.fixed | value << (8 * fixed), mask(fixed) | known << (8 * fixed))
    }

    fn search(
        &mut self,
        argument: Argument,
        slot: u8,
        choice: u8,
        hint: Hint,
        part: usize,
        at: usize,
    ) -> Option<usize> {
        let (next, mask) = self.expected(argument.field, hint);
        self.values.bind(slot, at, at);
        self.choices[usize::from(choice)] = Choice { part, slot, end: at, next, mask };
        self.seek(argument.field, choice, at)
    }

    /// The first place from here on where what has to come next comes.
    #[inline(always)]
    fn seek(&mut self, field: &[u8], choice: u8, mut at: usize) -> Option<usize> {
        let Choice { slot, next, mask, .. } = self.choices[usize::from(choice)];
        // Where a character comes next, other characters are passed over four at a time; a mask of none stops at once.
        let stop = if next as u8 == CHARACTER { next as u16 } else { 0 };
        loop {
            let here = word(field, at);
            if (here ^ next) & mask == 0 {
                self.choices[usize::from(choice)].end = at;
                self.values.ends[usize::from(slot & 15)] = at as u32;
                return Some(at);
            }
            let kind = here as u8;
            if ends_level(kind) {
                return None;
            }
            at = match kind {
                CHARACTER => skip_characters(field, at + 2, stop),
                _ => skip_term(field, at),
            };
        }
    }

    /// Gives the blamed search's value one more term, or that of the next one to blame.
    fn go_back(&mut self, argument: Argument, parts: &[Part], mut blame: u8) -> Option<(usize, usize)> {
        while blame != NOBODY {
            let Choice { part, end, .. } = self.choices[usize::from(blame)];
            if !ends_level(argument.field[end]) {
                let longer = skip_term(argument.field, end);
                if let Some(at) = self.seek(argument.field, blame, longer) {
                    return Some((part, at));
                }
            }
            blame = parts[part].blame;
        }
        None
    }
}
