//! Elements in flat bytes, read a word at a time where that is quicker.

pub const CHARACTER: u8 = 0x01;
pub const NAME: u8 = 0x02;
pub const MACRODIGIT: u8 = 0x03;
pub const OPEN: u8 = 0x04;
pub const CLOSE: u8 = 0x05;
pub const CALL: u8 = 0x06;
pub const END_CALL: u8 = 0x07;
pub const S: u8 = 0x08;
pub const E: u8 = 0x0A;
pub const EQUALS: u8 = 0x0B;
pub const END_SENTENCE: u8 = 0x0C;
pub const HEADER: u8 = 0x0D;
pub const END_FUNCTION: u8 = 0x0E;
pub const END_PROGRAM: u8 = 0x0F;

/// Whole lengths of the elements that a field may hold, by kind.
const LENGTHS: [u8; 8] = [0, 2, 3, 5, 1, 1, 3, 1];

/// Four characters in a word: their kinds, and where these stand.
const CHARACTERS: u64 = 0x0001_0001_0001_0001;
const KINDS: u64 = 0x00FF_00FF_00FF_00FF;
const TOPS: u64 = 0x8000_8000_8000_8000;

#[inline(always)]
pub fn length(kind: u8) -> usize {
    usize::from(LENGTHS[usize::from(kind & 7)])
}

/// Eight bytes from this place on, zeros past the end.
#[inline(always)]
pub fn word(bytes: &[u8], at: usize) -> u64 {
    match bytes.get(at..at + 8) {
        Some(eight) => u64::from_le_bytes(eight.try_into().expect("eight bytes")),
        None => last_word(bytes, at),
    }
}

#[cold]
fn last_word(bytes: &[u8], at: usize) -> u64 {
    let mut eight = [0; 8];
    let rest = bytes.get(at..).unwrap_or_default();
    eight[..rest.len()].copy_from_slice(rest);
    u64::from_le_bytes(eight)
}

/// A word with ones in its first bytes.
#[inline(always)]
pub fn mask(length: usize) -> u64 {
    if length >= 8 {
        u64::MAX
    } else {
        (1 << (8 * length)) - 1
    }
}

/// The number in a two-byte body, low byte first.
#[inline(always)]
pub fn number(bytes: &[u8], at: usize) -> u16 {
    u16::from_le_bytes([bytes[at + 1], bytes[at + 2]])
}

/// Stores up to eight bytes of a word, and no byte more.
#[inline(always)]
pub fn store(bytes: &mut [u8], at: usize, word: u64, length: usize) {
    let target = &mut bytes[at..at + length];
    match length {
        0 => {}
        1 => target[0] = word as u8,
        2..=3 => {
            target[..2].copy_from_slice(&(word as u16).to_le_bytes());
            target[length - 2..].copy_from_slice(&((word >> (8 * length - 16)) as u16).to_le_bytes());
        }
        _ => {
            target[..4].copy_from_slice(&(word as u32).to_le_bytes());
            target[length - 4..].copy_from_slice(&((word >> (8 * length - 32)) as u32).to_le_bytes());
        }
    }
}

/// On over characters, four at a time, as long as none of the four is the stop: a character's two bytes, or 0.
#[inline(always)]
pub fn skip_characters(bytes: &[u8], mut at: usize, stop: u16) -> usize {
    let stops = u64::from(stop) * CHARACTERS;
    loop {
        let four = word(bytes, at);
        let apart = four ^ stops;
        // A character equal to the stop leaves two zero bytes, whose top bit the borrow sets.
        let stopped = apart.wrapping_sub(CHARACTERS) & !apart & TOPS;
        if four & KINDS != CHARACTERS || stopped != 0 {
            return at;
        }
        at += 8;
    }
}

/// On past the closing bracket of an open bracket whose content begins here.
pub fn skip_to_close(bytes: &[u8], mut at: usize) -> usize {
    let mut depth = 1;
    loop {
        match bytes[at] {
            CHARACTER => at = skip_characters(bytes, at + 2, 0),
            OPEN => {
                depth += 1;
                at += 1;
            }
            CLOSE => {
                depth -= 1;
                at += 1;
                if depth == 0 {
                    return at;
                }
            }
            kind => at += length(kind),
        }
    }
}

/// On past one term, which begins here.
#[inline(always)]
pub fn skip_term(bytes: &[u8], at: usize) -> usize {
    match bytes[at] {
        OPEN => skip_to_close(bytes, at + 1),
        kind => at + length(kind),
    }
}

#[inline(always)]
pub fn ends_level(kind: u8) -> bool {
    kind == CLOSE || kind == END_CALL
}

/// How many terms there are up to the end of this level.
pub fn count_terms(bytes: &[u8], mut at: usize) -> usize {
    let mut count = 0;
    loop {
        let kind = bytes[at];
        if ends_level(kind) {
            return count;
        }
        let mut on = skip_term(bytes, at);
        count += 1;
        if kind == CHARACTER {
            let far = skip_characters(bytes, on, 0);
            count += (far - on) / 2;
            on = far;
        }
        at = on;
    }
}

/// On past so many terms, which are there.
pub fn skip_terms(bytes: &[u8], mut at: usize, mut count: usize) -> usize {
    while count > 0 {
        if bytes[at] == CHARACTER && count >= 4 {
            let far = skip_characters(bytes, at, 0).min(at + 2 * count);
            count -= (far - at) / 2;
            at = far;
            if count == 0 {
                break;
            }
        }
        at = skip_term(bytes, at);
        count -= 1;
    }
    at
}

/// Whether a term of this level begins or the level ends at `end`; `at` is such a place.
pub fn is_boundary(bytes: &[u8], mut at: usize, end: usize) -> bool {
    while at < end && !ends_level(bytes[at]) {
        if bytes[at] == CHARACTER {
            // Among characters every second byte is a boundary.
            let far = skip_characters(bytes, at, 0);
            if far >= end {
                return (end - at) % 2 == 0;
            }
            at = far;
        }
        if ends_level(bytes[at]) {
            break;
        }
        at = skip_term(bytes, at);
    }
    at == end
}
