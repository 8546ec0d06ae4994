//! Text into bytes, by document 01's section on text and the syntax reference of manual 003: rules into a program and
//! a name list, and expressions over the names of rules.

use crate::check::{Reading, Spot};
use crate::element::*;
use crate::machine::{BAD_SIZES, DONE, LONGEST, NO_ROOM};
use crate::notation::macrodigit;
use crate::token::{next, Index, Spelling, Token};
use std::collections::BTreeMap;

pub const BAD_TEXT: u8 = 8;
pub const RECORD: u8 = 0x14;
const LONGEST_STRING: usize = 255;

/// What reading rules gives; program and list are empty on a refusal.
#[derive(Clone, Debug, PartialEq)]
pub struct Answer {
    pub code: u8,
    pub program: Vec<u8>,
    pub list: Vec<u8>,
    pub place: usize,
}

/// Rules into a program buffer and a list buffer of these lengths.
pub fn read_rules(text: &[u8], program_room: usize, list_room: usize) -> Answer {
    let refused = |code, place| Answer { code, program: Vec::new(), list: Vec::new(), place };
    if text.len().max(program_room).max(list_room) > LONGEST {
        return refused(BAD_SIZES, 0);
    }
    let mut names = Names::default();
    match rules(text, &mut names) {
        Err(place) => refused(BAD_TEXT, place),
        Ok(program) if program.len() > program_room || names.records().len() > list_room => refused(NO_ROOM, 0),
        Ok(program) => Answer { code: DONE, program, list: names.records(), place: 0 },
    }
}

/// Identifiers in one spelling, numbered from 0 by first appearance.
#[derive(Default)]
pub struct Names {
    list: Vec<Spelling>,
    numbers: BTreeMap<Spelling, u16>,
}

impl Names {
    fn number(&mut self, name: Spelling) -> [u8; 2] {
        let new = u16::try_from(self.list.len()).expect("two bytes hold a name number");
        let number = *self.numbers.entry(name.clone()).or_insert(new);
        if number == new {
            self.list.push(name);
        }
        number.to_le_bytes()
    }

    /// One record for each name: kind 14, then the spelling in 15 bytes.
    fn records(&self) -> Vec<u8> {
        let mut out = Vec::new();
        for name in &self.list {
            out.push(RECORD);
            out.extend(name);
            out.resize(out.len().next_multiple_of(16), 0);
        }
        out
    }

    /// `0 Find, 1 Price`: the list as the texts show it.
    pub fn list(&self) -> String {
        let spelled = |name: &Spelling| String::from_utf8_lossy(name).into_owned();
        let numbered = self.list.iter().enumerate().map(|(number, name)| format!("{number} {}", spelled(name)));
        numbered.collect::<Vec<_>>().join(", ")
    }
}

/// A program where functions are defined, else an expression; the bytes are good.
pub fn read(text: &str, names: &mut Names) -> Result<Vec<u8>, String> {
    let text = text.as_bytes();
    let bytes = if defines_functions(text) { rules(text, names) } else { expression(text, names) };
    bytes.map_err(|place| format!("bad text at {place}"))
}

fn defines_functions(text: &[u8]) -> bool {
    let mut at = 0;
    while let Ok(Some(met)) = next(text, at) {
        if matches!(met.token, Token::Sign(b'{')) {
            return true;
        }
        at = met.end;
    }
    false
}

/// A good program, or the place of the first bad token.
pub fn rules(text: &[u8], names: &mut Names) -> Result<Vec<u8>, usize> {
    let mut rules = Rules { stand: Stand::Start, elements: Elements::new(Spot::Outside, names) };
    let mut at = 0;
    while let Some(met) = next(text, at)? {
        rules.token(met.token).ok_or(met.place)?;
        at = met.end;
    }
    match rules.stand {
        Stand::Start | Stand::Ended => rules.elements.element(&[END_PROGRAM]).ok_or(text.len())?,
        Stand::Named | Stand::Inside | Stand::Parted => return Err(text.len()),
    }
    Ok(rules.elements.out)
}

/// A good field, or the place of the first bad token; its strings may be of any length.
fn expression(text: &[u8], names: &mut Names) -> Result<Vec<u8>, usize> {
    let mut elements = Elements::new(Spot::Field, names);
    let mut at = 0;
    while let Some(met) = next(text, at)? {
        elements.token(met.token).ok_or(met.place)?;
        at = met.end;
    }
    elements.reading.is_whole().then_some(elements.out).ok_or(text.len())
}

/// Where the reader of rules stands among functions.
#[derive(Clone, Copy)]
enum Stand {
    Start,
    Named,
    Inside,
    Ended,
    /// After a semicolon that parts functions.
    Parted,
}

struct Rules<'a> {
    stand: Stand,
    elements: Elements<'a>,
}

impl Rules<'_> {
    /// None if the token cannot stand here or makes a bad element.
    fn token(&mut self, token: Token) -> Option<()> {
        self.stand = match (self.stand, token) {
            (Stand::Start | Stand::Ended | Stand::Parted, Token::Name(name)) => {
                self.elements.named(HEADER, name)?;
                Stand::Named
            }
            (Stand::Ended, Token::Sign(b';')) => Stand::Parted,
            (Stand::Named, Token::Sign(b'{')) => Stand::Inside,
            (Stand::Inside, Token::Sign(b'}')) => {
                self.elements.end_function()?;
                Stand::Ended
            }
            (Stand::Inside, Token::Characters(codes)) if codes.len() > LONGEST_STRING => return None,
            (Stand::Inside, token) => {
                self.elements.token(token)?;
                Stand::Inside
            }
            _ => return None,
        };
        Some(())
    }
}

/// Elements already made, all of them good.
struct Elements<'a> {
    reading: Reading,
    names: &'a mut Names,
    /// The indices met in this sentence for each kind; their order gives the numbers.
    variables: [Vec<Index>; 3],
    out: Vec<u8>,
}

impl Elements<'_> {
    fn new(spot: Spot, names: &mut Names) -> Elements<'_> {
        Elements { reading: Reading::new(spot), names, variables: Default::default(), out: Vec::new() }
    }

    /// None if the element is bad, given those before it.
    fn element(&mut self, element: &[u8]) -> Option<()> {
        self.reading.element(element).ok()?;
        if matches!(element[0], HEADER | END_SENTENCE) {
            self.variables = Default::default();
        }
        self.out.extend(element);
        Some(())
    }

    fn token(&mut self, token: Token) -> Option<()> {
        match token {
            Token::Characters(codes) => {
                codes.iter().try_for_each(|code| self.element(&[CHARACTER, *code]).ok_or(())).ok()
            }
            Token::Macrodigit(value) => self.element(&macrodigit(value)),
            Token::Name(name) => self.named(NAME, name),
            Token::Call(name) => self.named(CALL, name),
            Token::Variable(kind, index) => self.variable(kind, index),
            Token::Sign(sign) => self.element(&[sign_kind(sign)?]),
        }
    }

    fn named(&mut self, kind: u8, name: Spelling) -> Option<()> {
        let [low, high] = self.names.number(name);
        self.element(&[kind, low, high])
    }

    fn variable(&mut self, kind: u8, index: Index) -> Option<()> {
        let met = &mut self.variables[usize::from(kind - S)];
        let number = met.iter().position(|other| *other == index).unwrap_or_else(|| {
            met.push(index);
            met.len() - 1
        });
        self.element(&[kind, u8::try_from(number).ok()?])
    }

    /// The last sentence may do without its semicolon.
    fn end_function(&mut self) -> Option<()> {
        if self.reading.spot() == Spot::Right {
            self.element(&[END_SENTENCE])?;
        }
        self.element(&[END_FUNCTION])
    }
}

/// None for a sign that makes no element of its own.
fn sign_kind(sign: u8) -> Option<u8> {
    match sign {
        b'(' => Some(OPEN),
        b')' => Some(CLOSE),
        b'>' => Some(END_CALL),
        b'=' => Some(EQUALS),
        b';' => Some(END_SENTENCE),
        _ => None,
    }
}
