//! The classes of bytes in a text, and searches that look at several bytes at once.

use super::bytes::mask;

/// What a token that begins with the byte can be.
#[derive(Clone, Copy, PartialEq)]
pub enum Class {
    Stray,
    Blank,
    Star,
    Slash,
    Quote,
    Digit,
    Capital,
    Variable,
    Call,
    EndCall,
    Open,
    Close,
    Begin,
    End,
    Equals,
    Semicolon,
}

static CLASSES: [Class; 256] = tables().0;
static IN_WORD: [bool; 256] = tables().1;

const fn tables() -> ([Class; 256], [bool; 256]) {
    let (mut classes, mut in_word) = ([Class::Stray; 256], [false; 256]);
    let mut byte = 0;
    while byte < 256 {
        classes[byte] = class(byte as u8);
        in_word[byte] = (byte as u8).is_ascii_alphanumeric() || byte as u8 == b'-' || byte as u8 == b'_';
        byte += 1;
    }
    (classes, in_word)
}

const fn class(byte: u8) -> Class {
    match byte {
        b' ' | b'\t' | b'\r' | b'\n' => Class::Blank,
        b'*' => Class::Star,
        b'/' => Class::Slash,
        b'\'' | b'"' => Class::Quote,
        b'0'..=b'9' => Class::Digit,
        b'A'..=b'Z' => Class::Capital,
        b's' | b't' | b'e' => Class::Variable,
        b'<' => Class::Call,
        b'>' => Class::EndCall,
        b'(' => Class::Open,
        b')' => Class::Close,
        b'{' => Class::Begin,
        b'}' => Class::End,
        b'=' => Class::Equals,
        b';' => Class::Semicolon,
        _ => Class::Stray,
    }
}

/// The class of the byte there; past the end nothing begins.
#[inline(always)]
pub fn class_at(text: &[u8], at: usize) -> Class {
    text.get(at).map_or(Class::Stray, |byte| CLASSES[usize::from(*byte)])
}

#[inline(always)]
pub fn is_line_end(byte: u8) -> bool {
    byte == b'\n' || byte == b'\r'
}

/// Whether a byte can stand in an identifier.
#[inline(always)]
pub fn in_word(byte: u8) -> bool {
    IN_WORD[usize::from(byte)]
}

const ONES: u64 = 0x0101_0101_0101_0101;
const TOPS: u64 = 0x8080_8080_8080_8080;

/// Top bits, the lowest of them at the first byte of the word that is one of these; 0 where none is.
#[inline(always)]
pub fn hits<const N: usize>(word: u64, wanted: [u8; N]) -> u64 {
    wanted.iter().fold(0, |hits, byte| {
        let other = word ^ (ONES * u64::from(*byte));
        hits | other.wrapping_sub(ONES) & !other & TOPS
    })
}

/// Eight bytes, if so many are left.
#[inline(always)]
pub fn eight(text: &[u8], at: usize) -> Option<u64> {
    text.get(at..at + 8).map(|eight| u64::from_le_bytes(eight.try_into().expect("eight bytes")))
}

/// Where the first byte from here on is that is one of these; the end where none is.
#[inline(always)]
pub fn find<const N: usize>(text: &[u8], mut at: usize, wanted: [u8; N]) -> usize {
    while let Some(word) = eight(text, at) {
        let hits = hits(word, wanted);
        if hits != 0 {
            return at + hits.trailing_zeros() as usize / 8;
        }
        at += 8;
    }
    text[at..].iter().position(|byte| wanted.contains(byte)).map_or(text.len(), |more| at + more)
}

/// Sixteen bytes, zeros past the end.
#[inline(always)]
fn sixteen(text: &[u8], at: usize) -> [u8; 16] {
    match text.get(at..at + 16) {
        Some(bytes) => bytes.try_into().expect("sixteen bytes"),
        None => last_sixteen(text, at),
    }
}

#[cold]
fn last_sixteen(text: &[u8], at: usize) -> [u8; 16] {
    let mut bytes = [0; 16];
    let rest = text.get(at..).unwrap_or_default();
    bytes[..rest.len()].copy_from_slice(rest);
    bytes
}

/// Letters, digits, dashes and underscores from here on: how many, 16 standing for more, and in one spelling.
#[inline(always)]
pub fn word_at(text: &[u8], at: usize) -> (usize, u128) {
    let length = text[at..].iter().take(16).take_while(|byte| in_word(**byte)).count();
    (length, even(u128::from_le_bytes(sixteen(text, at)) & wide_mask(length)))
}

#[inline(always)]
fn wide_mask(length: usize) -> u128 {
    u128::from(mask(length)) | u128::from(mask(length.saturating_sub(8))) << 64
}

/// Capitals become small and underscores dashes, in all bytes of a word at once.
#[inline(always)]
fn even(word: u128) -> u128 {
    const EACH: u128 = u128::MAX / 0xFF;
    // Only letters and the underscore have the bit of 64, and only the underscore becomes 127.
    let small = word | (word & (EACH * 0x40)) >> 1;
    let underscores = ((small + EACH) & (EACH * 0x80)) >> 7;
    small - underscores * u128::from(0x7F - b'-')
}
