//! Reading rules as text, in one pass. The program is made beside the lent buffers, which a refusal has to leave alone.
//!
//! Whatever is wrong with a token, the answer is the token's place; so every error is a place.

use super::bytes::*;
use super::classes::*;
use super::names::Names;
use super::variables::Variables;
use super::{BAD_SIZES, BAD_TEXT, DONE, LONGEST, NO_ROOM};
use std::cell::RefCell;

const LONGEST_LEFT: usize = 100;
const LONGEST_RIGHT: usize = 400;
const LONGEST_STRING: usize = 255;
const LONGEST_NAME: usize = 15;
const EIGHT_SPACES: u64 = u64::from_le_bytes([b' '; 8]);

/// No text gives more than four bytes for each of its own (`1A` gives eight); a string writes a few ahead.
const MOST_MADE: usize = 4 * LONGEST + 64;

/// Code, lengths of what was written, place.
#[derive(Clone, Copy, Debug, PartialEq)]
pub struct Reading {
    pub code: u8,
    pub program: usize,
    pub names: usize,
    pub place: usize,
}

/// What is kept for the next text.
struct Work {
    made: Box<[u8]>,
    names: Names,
}

thread_local! {
    static WORK: RefCell<Work> = RefCell::new(Work { made: vec![0; MOST_MADE].into(), names: Names::default() });
}

pub fn read(text: &[u8], program: &mut [u8], names: &mut [u8]) -> Reading {
    let refused = |code, place| Reading { code, program: 0, names: 0, place };
    if text.len().max(program.len()).max(names.len()) > LONGEST {
        return refused(BAD_SIZES, 0);
    }
    WORK.with_borrow_mut(|work| match Reader::new(text, work).program() {
        Err(place) => refused(BAD_TEXT, place),
        Ok(length) => hand_over(&work.made[..length], &work.names.records, program, names),
    })
}

fn hand_over(made: &[u8], records: &[u128], program: &mut [u8], names: &mut [u8]) -> Reading {
    let listed = 16 * records.len();
    if made.len() > program.len() || listed > names.len() {
        return Reading { code: NO_ROOM, program: 0, names: 0, place: 0 };
    }
    let (written, rest) = program.split_at_mut(made.len());
    written.copy_from_slice(made);
    rest.fill(0);
    let (written, rest) = names.split_at_mut(listed);
    for (place, record) in written.chunks_exact_mut(16).zip(records) {
        place.copy_from_slice(&record.to_le_bytes());
    }
    rest.fill(0);
    Reading { code: DONE, program: made.len(), names: listed, place: 0 }
}

struct Reader<'a> {
    text: &'a [u8],
    at: usize,
    made: &'a mut [u8],
    length: usize,
    names: &'a mut Names,
    variables: Variables,
    /// The brackets open on this side, by their kinds.
    open: [u8; LONGEST_RIGHT + 1],
}

impl<'a> Reader<'a> {
    fn new(text: &'a [u8], work: &'a mut Work) -> Reader<'a> {
        let Work { made, names } = work;
        names.clear(text.len());
        let (variables, open) = (Variables::default(), [0; LONGEST_RIGHT + 1]);
        Reader { text, at: 0, made, length: 0, names, variables, open }
    }

    #[inline(always)]
    fn class(&self) -> Class {
        class_at(self.text, self.at)
    }

    #[inline(always)]
    fn put<const N: usize>(&mut self, element: [u8; N]) {
        self.made[self.length..self.length + N].copy_from_slice(&element);
        self.length += N;
    }

    /// How long the program is.
    fn program(mut self) -> Result<usize, usize> {
        let mut is_parted = false;
        self.pass_gaps()?;
        while is_parted || self.at < self.text.len() {
            self.function()?;
            self.pass_gaps()?;
            is_parted = self.class() == Class::Semicolon;
            if is_parted {
                self.at += 1;
                self.pass_gaps()?;
            }
        }
        self.put([END_PROGRAM]);
        Ok(self.length)
    }

    fn function(&mut self) -> Result<(), usize> {
        self.named(HEADER, self.at)?;
        self.pass_gaps()?;
        if self.class() != Class::Begin {
            return Err(self.at);
        }
        self.at += 1;
        let mut is_first = true;
        while self.left_side(is_first)? && self.right_side()? {
            is_first = false;
        }
        self.put([END_FUNCTION]);
        Ok(())
    }

    /// Up to its `=`; false where the function ends instead, which it may after a sentence.
    fn left_side(&mut self, is_first: bool) -> Result<bool, usize> {
        self.variables.clear();
        match self.side::<false>()? {
            (Class::Equals, _) => self.put([EQUALS]),
            (Class::End, 0) if !is_first => {
                self.at += 1;
                return Ok(false);
            }
            _ => return Err(self.at),
        }
        self.at += 1;
        Ok(true)
    }

    /// Up to its `;`, or to the end of the function, which is false.
    fn right_side(&mut self) -> Result<bool, usize> {
        let (sign, _) = self.side::<true>()?;
        if !matches!(sign, Class::Semicolon | Class::End) {
            return Err(self.at);
        }
        self.put([END_SENTENCE]);
        self.at += 1;
        Ok(sign == Class::Semicolon)
    }

    /// The elements up to a sign that cannot stand between them, and how many they are; no bracket is left open there.
    #[inline(always)]
    fn side<const RIGHT: bool>(&mut self) -> Result<(Class, usize), usize> {
        let most = if RIGHT { LONGEST_RIGHT } else { LONGEST_LEFT };
        let (mut count, mut depth) = (0, 0);
        loop {
            self.pass_blanks();
            let place = self.at;
            let class = self.class();
            match class {
                Class::Star | Class::Slash => {
                    self.pass_comment()?;
                    continue;
                }
                Class::Quote => count += self.string(place)?,
                Class::Digit => count += self.macrodigit(place)?,
                Class::Capital => count += self.named(NAME, place)?,
                Class::Variable => count += self.variable::<RIGHT>(place)?,
                Class::Open => {
                    self.put([OPEN]);
                    self.at += 1;
                    (count, depth) = (count + 1, self.opened(OPEN, depth));
                }
                Class::Call if RIGHT => {
                    self.at += 1;
                    count += self.named(CALL, place)?;
                    depth = self.opened(CALL, depth);
                }
                Class::Close if self.closes(OPEN, depth) => {
                    self.put([CLOSE]);
                    self.at += 1;
                    (count, depth) = (count + 1, depth - 1);
                }
                Class::EndCall if self.closes(CALL, depth) => {
                    self.put([END_CALL]);
                    self.at += 1;
                    (count, depth) = (count + 1, depth - 1);
                }
                _ if depth == 0 => return Ok((class, count)),
                _ => return Err(place),
            }
            if count > most {
                return Err(place);
            }
        }
    }

    #[inline(always)]
    fn opened(&mut self, kind: u8, depth: usize) -> usize {
        self.open[depth] = kind;
        depth + 1
    }

    #[inline(always)]
    fn closes(&self, kind: u8, depth: usize) -> bool {
        depth > 0 && self.open[depth - 1] == kind
    }

    #[inline(always)]
    fn pass_gaps(&mut self) -> Result<(), usize> {
        loop {
            match self.class() {
                Class::Blank => self.pass_blanks(),
                Class::Star | Class::Slash => self.pass_comment()?,
                _ => return Ok(()),
            }
        }
    }

    #[inline(always)]
    fn pass_blanks(&mut self) {
        while self.class() == Class::Blank {
            self.at += 1;
            while eight(self.text, self.at) == Some(EIGHT_SPACES) {
                self.at += 8;
            }
        }
    }

    /// A star or a slash that begins no comment is a stray byte.
    fn pass_comment(&mut self) -> Result<(), usize> {
        let (text, place) = (self.text, self.at);
        if text[place] == b'*' {
            if place > 0 && !is_line_end(text[place - 1]) {
                return Err(place);
            }
            self.at = find(text, place, [b'\n', b'\r']);
            return Ok(());
        }
        if text.get(place + 1) != Some(&b'*') {
            return Err(place);
        }
        // The star that opens a comment does not close it.
        let mut star = find(text, place + 2, [b'*']);
        while star < text.len() {
            if text.get(star + 1) == Some(&b'/') {
                self.at = star + 2;
                return Ok(());
            }
            star = find(text, star + 1, [b'*']);
        }
        Err(place)
    }

    /// How many characters there are.
    #[inline(always)]
    fn string(&mut self, place: usize) -> Result<usize, usize> {
        let (text, quote, start) = (self.text, self.text[place], self.length);
        self.at += 1;
        loop {
            self.characters(quote);
            if text.get(self.at) != Some(&quote) {
                return Err(place);
            }
            self.at += 1;
            if text.get(self.at) != Some(&quote) {
                break;
            }
            self.at += 1;
            self.put([CHARACTER, quote]);
        }
        let count = (self.length - start) / 2;
        if count > LONGEST_STRING {
            return Err(place);
        }
        Ok(count)
    }

    /// Up to the next quote of this sort or the end of the line.
    #[inline(always)]
    fn characters(&mut self, quote: u8) {
        let (text, stops) = (self.text, [quote, b'\n', b'\r']);
        while let Some(word) = eight(text, self.at) {
            let ahead = &mut self.made[self.length..self.length + 16];
            for (pair, code) in ahead.chunks_exact_mut(2).zip(word.to_le_bytes()) {
                pair.copy_from_slice(&[CHARACTER, code]);
            }
            let hits = hits(word, stops);
            let count = if hits == 0 { 8 } else { hits.trailing_zeros() as usize / 8 };
            self.at += count;
            self.length += 2 * count;
            if hits != 0 {
                return;
            }
        }
        while let Some(code) = text.get(self.at).filter(|code| !stops.contains(code)) {
            self.put([CHARACTER, *code]);
            self.at += 1;
        }
    }

    #[inline(always)]
    fn macrodigit(&mut self, place: usize) -> Result<usize, usize> {
        let mut value = 0u64;
        while let Some(digit @ b'0'..=b'9') = self.text.get(self.at) {
            value = 10 * value + u64::from(digit - b'0');
            if value > u64::from(u32::MAX) {
                return Err(place);
            }
            self.at += 1;
        }
        let is_real = matches!(self.text.get(self.at), Some(b'.' | b'E'))
            && matches!(self.text.get(self.at + 1), Some(b'0'..=b'9'));
        if is_real {
            return Err(place);
        }
        let [a, b, c, d] = (value as u32).to_le_bytes();
        self.put([MACRODIGIT, a, b, c, d]);
        Ok(1)
    }

    /// A header, a name or a call; the identifier stands where reading does.
    #[inline(always)]
    fn named(&mut self, kind: u8, place: usize) -> Result<usize, usize> {
        let (length, spelling) = word_at(self.text, self.at);
        if self.class() != Class::Capital || length > LONGEST_NAME {
            return Err(place);
        }
        self.at += length;
        // The first letter is the one that stays as it is.
        let [low, high] = self.names.number(spelling ^ 0x20).to_le_bytes();
        self.put([kind, low, high]);
        Ok(1)
    }

    #[inline(always)]
    fn variable<const RIGHT: bool>(&mut self, place: usize) -> Result<usize, usize> {
        let kind = match self.text[place] {
            b's' => S,
            b't' => S + 1,
            _ => E,
        };
        self.at += 1;
        let index = match self.text.get(self.at) {
            Some(b'.') => self.dotted_index(),
            _ => self.short_index(),
        };
        let number = index.and_then(|index| self.variables.number(kind, index, !RIGHT)).ok_or(place)?;
        self.put([kind, number]);
        Ok(1)
    }

    /// One capital or digit; only another variable may be written close up.
    #[inline(always)]
    fn short_index(&mut self) -> Option<u128> {
        let byte = *self.text.get(self.at)?;
        self.at += 1;
        let follows = self.text.get(self.at).is_some_and(|next| in_word(*next)) && self.class() != Class::Variable;
        match byte {
            _ if follows => None,
            // Nought is the number without digits.
            b'0' => Some(0),
            b'1'..=b'9' => Some(byte.into()),
            b'A'..=b'Z' => Some(byte.to_ascii_lowercase().into()),
            _ => None,
        }
    }

    #[inline(always)]
    fn dotted_index(&mut self) -> Option<u128> {
        self.at += 1;
        let (length, spelling) = word_at(self.text, self.at);
        match spelling as u8 {
            b'a'..=b'z' if length <= LONGEST_NAME => {
                self.at += length;
                Some(spelling)
            }
            b'0'..=b'9' if length == 1 => {
                self.at += 1;
                Some(if spelling as u8 == b'0' { 0 } else { spelling })
            }
            b'0'..=b'9' => self.number_index(),
            _ => None,
        }
    }

    /// Digits only, as many as there are, without the zeros in front.
    #[inline(never)]
    fn number_index(&mut self) -> Option<u128> {
        let run = |from: usize, belongs: fn(&u8) -> bool| {
            self.text[from..].iter().position(|byte| !belongs(byte)).map_or(self.text.len(), |more| from + more)
        };
        let start = run(self.at, |byte| *byte == b'0');
        let end = run(start, u8::is_ascii_digit);
        if self.text.get(end).is_some_and(|next| in_word(*next)) {
            return None;
        }
        self.at = end;
        Some(match end - start {
            0..=LONGEST_NAME => {
                self.text[start..end].iter().rev().fold(0, |index, digit| index << 8 | u128::from(*digit))
            }
            _ => self.variables.long_index(self.text, start, end),
        })
    }
}
