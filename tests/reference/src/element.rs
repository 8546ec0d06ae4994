//! Elements: one byte of kind, then a body whose length the kind fixes.

pub const CHARACTER: u8 = 0x01;
pub const NAME: u8 = 0x02;
pub const MACRODIGIT: u8 = 0x03;
pub const OPEN: u8 = 0x04;
pub const CLOSE: u8 = 0x05;
pub const CALL: u8 = 0x06;
pub const END_CALL: u8 = 0x07;
pub const S: u8 = 0x08;
pub const T: u8 = 0x09;
pub const E: u8 = 0x0A;
pub const EQUALS: u8 = 0x0B;
pub const END_SENTENCE: u8 = 0x0C;
pub const HEADER: u8 = 0x0D;
pub const END_FUNCTION: u8 = 0x0E;
pub const END_PROGRAM: u8 = 0x0F;

/// None for a kind that no program may hold.
pub fn body_length(kind: u8) -> Option<usize> {
    match kind {
        CHARACTER | S | T | E => Some(1),
        NAME | CALL | HEADER => Some(2),
        MACRODIGIT => Some(4),
        OPEN | CLOSE | END_CALL | EQUALS | END_SENTENCE | END_FUNCTION | END_PROGRAM => Some(0),
        _ => None,
    }
}

pub fn is_symbol(kind: u8) -> bool {
    matches!(kind, CHARACTER | NAME | MACRODIGIT)
}

pub fn is_variable(kind: u8) -> bool {
    matches!(kind, S | T | E)
}

/// The first element of bytes already found good.
pub fn first_element(bytes: &[u8]) -> &[u8] {
    &bytes[..1 + body_length(bytes[0]).expect("good bytes hold known kinds only")]
}

/// All elements of bytes already found good, with their offsets.
pub fn elements(bytes: &[u8]) -> Vec<(usize, &[u8])> {
    let mut list = Vec::new();
    let mut at = 0;
    while at < bytes.len() {
        let element = first_element(&bytes[at..]);
        list.push((at, element));
        at += element.len();
    }
    list
}

/// Length in bytes of the term that good bytes begin with; None where no term begins.
pub fn term_length(bytes: &[u8]) -> Option<usize> {
    if bytes.is_empty() || bytes[0] == CLOSE {
        return None;
    }
    let (mut at, mut depth) = (0, 0);
    loop {
        let element = first_element(&bytes[at..]);
        at += element.len();
        match element[0] {
            OPEN => depth += 1,
            CLOSE => depth -= 1,
            _ => {}
        }
        if depth == 0 {
            return Some(at);
        }
    }
}

/// How many terms a run of terms has, a bracketed one counting once.
pub fn count_terms(mut run: &[u8]) -> usize {
    let mut count = 0;
    while let Some(length) = term_length(run) {
        run = &run[length..];
        count += 1;
    }
    count
}

/// The number in a two-byte body, low byte first.
pub fn number(element: &[u8]) -> u16 {
    u16::from_le_bytes([element[1], element[2]])
}
