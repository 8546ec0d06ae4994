//! Good programs put into text, each name, number, string and variable in one of its many spellings.

use crate::element::*;
use crate::invent::Dice;
use crate::notation::macrodigit;
use crate::text::RECORD;

/// Tokens one by one, and the bytes that they have to give in whatever way they are parted.
pub struct Spelled {
    pub tokens: Vec<Vec<u8>>,
    pub program: Vec<u8>,
    pub list: Vec<u8>,
}

const WORDS: &str = "F E S Find E5 E-7 Abcdefghijklmno Abcdefghijklmn A- A--b X9 Entry Z-0-z T";

/// More than a sentence may have of one kind.
const INDICES: &str = "0 1 9 X E S 12 4294967296 99999999999999999999 tree tree-1 a-b x- z9 abcdefghijklmno st t1 e5";

/// The words come round again after the last.
fn nth(words: &'static str, number: usize) -> &'static str {
    words.split(' ').cycle().nth(number).expect("there are words")
}

fn any_start(dice: &Dice, words: &str) -> usize {
    dice.below(words.split(' ').count())
}

/// What has been put into text so far.
struct Speller<'a> {
    dice: &'a Dice,
    names: Vec<u16>,
    variables: [Vec<u8>; 3],
    /// Where in the tables this text and this sentence begin.
    first_word: usize,
    first_index: usize,
    made: Spelled,
}

/// The program with other characters, its names and variables numbered by first appearance.
pub fn spell(dice: &Dice, program: &[u8]) -> Spelled {
    let made = Spelled { tokens: Vec::new(), program: Vec::new(), list: Vec::new() };
    let (first_word, first_index) = (any_start(dice, WORDS), any_start(dice, INDICES));
    let mut speller = Speller { dice, names: Vec::new(), variables: Default::default(), first_word, first_index, made };
    let mut rest = program;
    while !rest.is_empty() {
        let element = first_element(rest);
        rest = &rest[element.len()..];
        speller.element(element, rest);
    }
    speller.made
}

impl Speller<'_> {
    fn element(&mut self, element: &[u8], rest: &[u8]) {
        let ends_function = rest.first() == Some(&END_FUNCTION);
        let sign = match element[0] {
            CHARACTER => return self.character(),
            MACRODIGIT => return self.macrodigit(element),
            NAME | CALL | HEADER => return self.named(element),
            S | T | E => return self.variable(element),
            OPEN => "(",
            CLOSE => ")",
            END_CALL => ">",
            EQUALS => "=",
            END_SENTENCE if ends_function && self.dice.once_in(2) => "",
            END_SENTENCE => ";",
            END_FUNCTION => "}",
            _ => "",
        };
        self.made.program.push(element[0]);
        self.token(sign.as_bytes().to_vec());
        match element[0] {
            END_SENTENCE => self.next_sentence(),
            END_FUNCTION if rest.first() == Some(&HEADER) && self.dice.once_in(3) => self.token(b";".to_vec()),
            OPEN | EQUALS if self.dice.once_in(9) => self.token(self.dice.pick(&["''", "\"\""]).as_bytes().to_vec()),
            _ => {}
        }
    }

    fn token(&mut self, token: Vec<u8>) {
        if !token.is_empty() {
            self.made.tokens.push(token);
        }
    }

    fn next_sentence(&mut self) {
        self.variables = Default::default();
        self.first_index = any_start(self.dice, INDICES);
    }

    /// A string of its own, or one more character of the string before.
    fn character(&mut self) {
        let code = match self.dice.below(8) {
            0 => self.dice.pick(b"'\"\\/* .<;"),
            1 => Some(self.dice.byte()).filter(|code| !b"\n\r".contains(code)).unwrap_or(0),
            _ => b'a' + self.dice.below(26) as u8,
        };
        self.made.program.extend([CHARACTER, code]);
        let last = self.made.tokens.last_mut().filter(|token| matches!(token[0], b'\'' | b'"') && token.len() < 255);
        let quote = match last {
            Some(token) if !self.dice.once_in(5) => {
                token.pop();
                token[0]
            }
            _ => {
                let quote = self.dice.pick(b"''\"");
                self.made.tokens.push(vec![quote]);
                quote
            }
        };
        let times = if code == quote { 2 } else { 1 };
        let string = self.made.tokens.last_mut().expect("a string was begun");
        string.extend(vec![code; times]);
        string.push(quote);
    }

    fn macrodigit(&mut self, element: &[u8]) {
        let value = u32::from_le_bytes([element[1], element[2], element[3], element[4]]);
        let zeros = if self.dice.once_in(4) { self.dice.below(12) } else { 0 };
        self.made.program.extend(macrodigit(value));
        self.token(["0".repeat(zeros), value.to_string()].concat().into_bytes());
    }

    fn named(&mut self, element: &[u8]) {
        let name = number(element);
        let known = self.names.iter().position(|other| *other == name);
        let new = known.unwrap_or(self.names.len());
        let word = nth(WORDS, self.first_word + new);
        if known.is_none() {
            assert!(new < WORDS.split(' ').count(), "there are too few words");
            self.names.push(name);
            self.made.list.extend([&[RECORD], word.as_bytes(), &vec![0; 15 - word.len()]].concat());
        }
        self.made.program.extend([element[0], new as u8, 0]);
        let mark = if element[0] == CALL { "<" } else { "" };
        self.token([mark.as_bytes(), &word.as_bytes()[..1], &self.uneven(&word.as_bytes()[1..])].concat());
        if element[0] == HEADER {
            self.token(b"{".to_vec());
            self.next_sentence();
        }
    }

    /// The same letters in any case, dashes as either.
    fn uneven(&self, letters: &[u8]) -> Vec<u8> {
        let other = |byte: &u8| if *byte == b'-' { b'_' } else { byte.to_ascii_uppercase() };
        letters.iter().map(|byte| if self.dice.once_in(4) { other(byte) } else { *byte }).collect()
    }

    fn variable(&mut self, element: &[u8]) {
        let (kind, old) = (usize::from(element[0] - S), element[1]);
        let met = &mut self.variables[kind];
        let new = met.iter().position(|other| *other == old).unwrap_or_else(|| {
            met.push(old);
            met.len() - 1
        });
        let index = nth(INDICES, self.first_index + usize::from(old)).as_bytes();
        self.made.program.extend([element[0], new as u8]);
        let letter = [b's', b't', b'e'][kind];
        let short = index.len() == 1 && self.dice.once_in(2);
        let token = match (index[0].is_ascii_digit(), short) {
            (_, true) => vec![letter, index[0].to_ascii_uppercase()],
            (true, false) => [&[letter, b'.'], "0".repeat(self.dice.below(3)).as_bytes(), index].concat(),
            (false, false) => [&[letter, b'.'], &self.uneven(index)[..]].concat(),
        };
        self.token(token);
    }
}

/// The tokens with blanks and comments between them, many or as few as can be.
pub fn join(dice: &Dice, tokens: &[Vec<u8>], many: bool) -> Vec<u8> {
    let mut out = if many { gap(dice) } else { Vec::new() };
    for (at, token) in tokens.iter().enumerate() {
        out.extend(token);
        let merges = tokens.get(at + 1).is_some_and(|next| merge(token, next));
        match many {
            true if merges || dice.once_in(3) => out.extend(gap(dice)),
            false if merges => out.push(b' '),
            _ => {}
        }
    }
    out
}

/// Whether two tokens close up would be read as others.
fn merge(token: &[u8], next: &[u8]) -> bool {
    let in_word = |byte: &u8| byte.is_ascii_alphanumeric() || b"-_".contains(byte);
    let is_variable = |token: &[u8]| b"ste".contains(&token[0]);
    let words = token.last().is_some_and(in_word) && in_word(&next[0]);
    match token[0] {
        b'\'' | b'"' => token[0] == next[0],
        b'0'..=b'9' if next[0] == b'E' => next.get(1).is_some_and(u8::is_ascii_digit),
        b'0'..=b'9' => next[0].is_ascii_digit(),
        b's' | b't' | b'e' if token.len() == 2 => words && !is_variable(next),
        _ => words,
    }
}

/// At least one blank or comment.
pub fn gap(dice: &Dice) -> Vec<u8> {
    let mut out = Vec::new();
    for _ in 0..1 + dice.below(3) {
        match dice.below(9) {
            0 => out.extend([b"/*", &inside(dice)[..], b"*/"].concat()),
            1 => out.extend([&dice.pick(b"\n\r").to_be_bytes(), &b"*"[..], &inside(dice), b"\n"].concat()),
            2 => out.extend(dice.pick(&["/**/", "/***/", "\r\n", "/*/*/", "\n**/\n", "\n*/*\r", "/* \n*/"]).bytes()),
            _ => out.push(dice.pick(b"   \n\t\r")),
        }
    }
    out
}

/// Any bytes that end neither form of comment.
fn inside(dice: &Dice) -> Vec<u8> {
    let length = dice.below(8);
    let any = || if dice.once_in(2) { dice.byte() } else { dice.pick(b"'\"*{};=aA ") };
    (0..length).map(|_| any()).filter(|byte| !b"/\n\r".contains(byte)).collect()
}
