//! A short hand for writing programs, fields and left sides in the case lists.

use crate::element::*;

/// Tokens are parted by blanks: `'ab` characters, `#5` a name, `97` a macrodigit, `( )`, `<5 >`, `s0 t0 e0`,
/// `=`, `;` end of sentence, `{5 }` a function, `.` end of program; `9*` before a token repeats it, `s0-15` is a row.
pub fn bytes(text: &str) -> Vec<u8> {
    text.split_whitespace().flat_map(token).collect()
}

fn token(token: &str) -> Vec<u8> {
    let rest = &token[1..];
    let named = |kind: u8| [vec![kind], rest.parse::<u16>().expect("a name number").to_le_bytes().to_vec()].concat();
    let alone = |kind: u8| {
        assert!(rest.is_empty(), "a blank is missing in {token}");
        vec![kind]
    };
    let variables = |kind: u8| {
        let (from, to) = rest.split_once('-').unwrap_or((rest, rest));
        let (from, to): (u8, u8) = (from.parse().expect("a number"), to.parse().expect("a number"));
        (from..=to).flat_map(|number| [kind, number]).collect()
    };
    match token.as_bytes()[0] {
        b'\'' => rest.bytes().flat_map(|code| [CHARACTER, code]).collect(),
        b'#' => named(NAME),
        b'<' => named(CALL),
        b'{' => named(HEADER),
        b's' => variables(S),
        b't' => variables(T),
        b'e' => variables(E),
        b'(' => alone(OPEN),
        b')' => alone(CLOSE),
        b'>' => alone(END_CALL),
        b'=' => alone(EQUALS),
        b';' => alone(END_SENTENCE),
        b'}' => alone(END_FUNCTION),
        b'.' => alone(END_PROGRAM),
        _ => match token.split_once('*') {
            Some((times, once)) => bytes(once).repeat(times.parse().expect("a number")),
            None => macrodigit(token.parse().expect("a macrodigit")),
        },
    }
}

pub fn macrodigit(value: u32) -> Vec<u8> {
    [vec![MACRODIGIT], value.to_le_bytes().to_vec()].concat()
}

pub fn hex(bytes: &[u8]) -> String {
    bytes.iter().map(|byte| format!("{byte:02X}")).collect()
}

pub fn from_hex(digits: &str) -> Vec<u8> {
    let byte = |at| u8::from_str_radix(&digits[at..at + 2], 16).expect("two hex digits");
    (0..digits.len()).step_by(2).map(byte).collect()
}

/// Two digits a byte with single spaces, as `expand` prints them.
pub fn spaced_hex(bytes: &[u8]) -> String {
    bytes.iter().map(|byte| format!("{byte:02X}")).collect::<Vec<_>>().join(" ")
}
