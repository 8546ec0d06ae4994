//! Lexical units of text, over bytes: by document 01's section on text and the syntax reference of manual 003.

use crate::element::{E, S, T};

/// The one spelling of all identifiers that are equal.
pub type Spelling = Vec<u8>;

pub enum Token {
    Characters(Vec<u8>),
    Macrodigit(u32),
    Name(Spelling),
    /// `<` and its name are one token, since nothing may part them.
    Call(Spelling),
    Variable(u8, Index),
    Sign(u8),
}

/// What follows a variable's letter; a number never equals an identifier.
#[derive(PartialEq)]
pub enum Index {
    /// Digits without leading zeros, as there is no largest number.
    Number(Vec<u8>),
    Identifier(Spelling),
}

/// A token, where it starts and where it ends.
pub struct Met {
    pub token: Token,
    pub place: usize,
    pub end: usize,
}

/// The first token from `at` on, none where only blanks and comments are left; where it is malformed, its place.
pub fn next(text: &[u8], at: usize) -> Result<Option<Met>, usize> {
    let mut place = at;
    while let Some(length) = gap(text, place)? {
        place += length;
    }
    if place == text.len() {
        return Ok(None);
    }
    let (token, length) = token(&text[place..]).ok_or(place)?;
    Ok(Some(Met { token, place, end: place + length }))
}

fn is_line_end(byte: u8) -> bool {
    byte == b'\n' || byte == b'\r'
}

/// How long a blank or a comment is, if one begins here; a comment never closed is malformed.
fn gap(text: &[u8], at: usize) -> Result<Option<usize>, usize> {
    let first_column = at == 0 || is_line_end(text[at - 1]);
    match &text[at..] {
        [b' ' | b'\t' | b'\r' | b'\n', ..] => Ok(Some(1)),
        line @ [b'*', ..] if first_column => Ok(Some(run_of(line, |byte| !is_line_end(byte)))),
        // The star that opens a comment does not close it.
        [b'/', b'*', inside @ ..] => {
            let end = inside.windows(2).position(|two| two == b"*/").ok_or(at)?;
            Ok(Some(2 + end + 2))
        }
        _ => Ok(None),
    }
}

/// The token that the rest begins with and its length; none where it is malformed.
fn token(rest: &[u8]) -> Option<(Token, usize)> {
    match rest[0] {
        b'\'' | b'"' => string(rest),
        b'0'..=b'9' => macrodigit(rest),
        b'A'..=b'Z' => identifier(rest).map(|(name, length)| (Token::Name(name), length)),
        b'<' => identifier(&rest[1..]).map(|(name, length)| (Token::Call(name), 1 + length)),
        b's' => variable(S, &rest[1..]),
        b't' => variable(T, &rest[1..]),
        b'e' => variable(E, &rest[1..]),
        b'(' | b')' | b'>' | b'{' | b'}' | b'=' | b';' => Some((Token::Sign(rest[0]), 1)),
        _ => None,
    }
}

fn run_of(bytes: &[u8], belongs: impl Fn(u8) -> bool) -> usize {
    bytes.iter().position(|byte| !belongs(*byte)).unwrap_or(bytes.len())
}

fn in_identifier(byte: u8) -> bool {
    byte.is_ascii_alphanumeric() || byte == b'-' || byte == b'_'
}

/// Later letters in either case are equal, as are dash and underscore.
fn even(letters: &[u8]) -> impl Iterator<Item = u8> + '_ {
    letters.iter().map(|byte| if *byte == b'_' { b'-' } else { byte.to_ascii_lowercase() })
}

fn identifier(rest: &[u8]) -> Option<(Spelling, usize)> {
    let length = run_of(rest, in_identifier);
    let first = rest.first().filter(|byte| byte.is_ascii_uppercase() && length <= 15)?;
    Some(([*first].into_iter().chain(even(&rest[1..length])).collect(), length))
}

/// A quote doubled inside stands for itself; a string closes on its line.
fn string(rest: &[u8]) -> Option<(Token, usize)> {
    let quote = rest[0];
    let mut characters = Vec::new();
    let mut at = 1;
    loop {
        match &rest[at..] {
            [first, second, ..] if *first == quote && *second == quote => at += 2,
            [first, ..] if *first == quote => return Some((Token::Characters(characters), at + 1)),
            [first, ..] if !is_line_end(*first) => at += 1,
            _ => return None,
        }
        characters.push(rest[at - 1]);
    }
}

/// Digits, unless they begin a real number or are worth more than four bytes hold.
fn macrodigit(rest: &[u8]) -> Option<(Token, usize)> {
    let length = run_of(rest, |byte| byte.is_ascii_digit());
    let real = matches!(rest[length..], [b'.' | b'E', b'0'..=b'9', ..]);
    let more = |value: u32, digit: &u8| value.checked_mul(10)?.checked_add(u32::from(digit - b'0'));
    let value = rest[..length].iter().try_fold(0, more)?;
    (!real).then_some((Token::Macrodigit(value), length))
}

/// `e.Word` with any index, or `eX` and `e1` with an index of one character.
fn variable(kind: u8, rest: &[u8]) -> Option<(Token, usize)> {
    let (index, length) = match rest {
        [b'.', run @ ..] => {
            let length = run_of(run, in_identifier);
            (&run[..length], 2 + length)
        }
        // Only another variable may be written close up.
        [b'A'..=b'Z' | b'0'..=b'9', after @ ..] => match after {
            [b's' | b't' | b'e', ..] => (&rest[..1], 2),
            [next, ..] if in_identifier(*next) => return None,
            _ => (&rest[..1], 2),
        },
        _ => return None,
    };
    Some((Token::Variable(kind, self::index(index)?), length))
}

fn index(run: &[u8]) -> Option<Index> {
    match run {
        [b'0'..=b'9', ..] if run.iter().all(u8::is_ascii_digit) => {
            Some(Index::Number(run[run_of(run, |byte| byte == b'0')..].to_vec()))
        }
        [b'A'..=b'Z' | b'a'..=b'z', ..] if run.len() <= 15 => Some(Index::Identifier(even(run).collect())),
        _ => None,
    }
}
