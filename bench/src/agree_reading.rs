//! The fast reader of rules held against the plain one: the answer, and every byte of program and list.

use crate::fast;
use crate::invent::{program, Dice};
use crate::machine::LONGEST;
use crate::notation::hex;
use crate::spelled::{gap, join, spell};
use crate::text::{read_rules, Answer};
use std::path::Path;

/// Beginnings, middles and ends of tokens, thrown together at random; a broken bar parts them.
const SOUP: &str = "\
    F¦Ab¦A-b¦A_B¦E5¦F{¦{¦}¦{=}¦;¦;¦=¦=¦(¦)¦(¦)¦<F¦<Ab¦<¦>¦>¦'a'¦'ab'¦\"a\"¦''¦''''¦'¦1¦12¦007¦4294967295\
    ¦4294967296¦1.5¦1E5¦12.¦.¦s1¦sX¦s.x¦t1¦e1¦eX¦e.x¦s.¦s¦t12¦e.Tree¦e.0000000000000001¦e.12345678901234567\
    ¦s.012345678901234567¦s.abcdefghijklmno¦s.abcdefghijklmnop¦Abcdefghijklmno¦Abcdefghijklmnop¦s1s2¦/**/¦/*\
    ¦*/¦\n*a\n¦\r*a\r¦*¦/¦$¦@¦,¦-¦_¦\u{E9}¦\0¦\t";

const FRAMES: [&str; 6] = ["", "F{", "F{e1 s1 t1 sX=", "F{=;", "F{=;}", "F{=(<F "];

/// How often one answer of each code was compared.
struct Tally([usize; 9]);

pub fn agree(repository: &Path, invented_texts: usize) {
    let mut tally = Tally([0; 9]);
    let file = std::fs::read(repository.join("crates/reading_cases/data/texts")).expect("the case file of texts");
    let mut rest = &file[..];
    while !rest.is_empty() {
        case_of_the_file(&mut rest, &mut tally);
    }
    let in_file: usize = tally.0.iter().sum();
    let dice = Dice::new(21);
    for _ in 0..invented_texts {
        let text = invented_text(&dice);
        tally.compare_with_rooms(&text, &dice);
    }
    println!("agreed on {in_file} texts of the case file and {invented_texts} invented; by code {:?}", tally.0);
}

/// A text, the lengths of the two buffers, and the byte with which both are filled.
fn case_of_the_file(rest: &mut &[u8], tally: &mut Tally) {
    let length = number(rest);
    let text = taken(rest, length);
    let (program_room, list_room) = (number(rest), number(rest));
    let fill = taken(rest, 1)[0];
    tally.compare(text, program_room, list_room, fill);
}

fn taken<'a>(rest: &mut &'a [u8], length: usize) -> &'a [u8] {
    let (part, behind) = rest.split_at(length);
    *rest = behind;
    part
}

fn number(rest: &mut &[u8]) -> usize {
    u32::from_le_bytes(taken(rest, 4).try_into().expect("four bytes")) as usize
}

impl Tally {
    fn compare(&mut self, text: &[u8], program_room: usize, list_room: usize, fill: u8) {
        let Answer { code, program, list, place } = read_rules(text, program_room, list_room);
        let expected = fast::Reading { code, program: program.len(), names: list.len(), place };
        let (mut given_program, mut given_list) = (vec![fill; program_room], vec![fill; list_room]);
        let given = fast::read(text, &mut given_program, &mut given_list);
        let written = |bytes: Vec<u8>, room: usize| match code {
            fast::DONE => [&bytes[..], &vec![0; room - bytes.len()]].concat(),
            _ => vec![fill; room],
        };
        let (program, list) = (written(program, program_room), written(list, list_room));
        assert!(
            given == expected && given_program == program && given_list == list,
            "{given:?} where {expected:?} is right\ntext {}\ngiven {}\nright {}",
            text.escape_ascii(),
            hex(&given_program),
            hex(&program)
        );
        self.0[usize::from(code)] += 1;
    }

    /// With room enough, and with rooms about what is needed.
    fn compare_with_rooms(&mut self, text: &[u8], dice: &Dice) {
        let Answer { program, list, .. } = read_rules(text, LONGEST, LONGEST);
        let about = |length: usize| (length + dice.below(3)).saturating_sub(1);
        self.compare(text, program.len() + dice.below(40), list.len() + dice.below(40), dice.byte());
        self.compare(text, about(program.len()), about(list.len()), dice.byte());
    }
}

fn invented_text(dice: &Dice) -> Vec<u8> {
    match dice.below(4) {
        0 => spelled(dice),
        1 => soup(dice),
        _ => damaged(dice, spelled(dice)),
    }
}

fn spelled(dice: &Dice) -> Vec<u8> {
    join(dice, &spell(dice, &program(dice)).tokens, dice.once_in(2))
}

fn soup(dice: &Dice) -> Vec<u8> {
    let tokens: Vec<&str> = SOUP.split('¦').collect();
    let mut text = dice.pick(&FRAMES).as_bytes().to_vec();
    for _ in 0..1 + dice.below(14) {
        text.extend(dice.pick(&tokens).bytes());
        if dice.once_in(2) {
            text.extend(gap(dice));
        }
    }
    text
}

/// A byte changed, put in, taken out, or the end cut off.
fn damaged(dice: &Dice, mut text: Vec<u8>) -> Vec<u8> {
    let telling = b"'\"*/<>(){}=;.sA1 \n\r$-_@";
    let byte = if dice.once_in(2) { dice.byte() } else { dice.pick(telling) };
    let at = dice.below(text.len() + 1);
    match dice.below(4) {
        0 => text.insert(at, byte),
        1 => text.truncate(at),
        _ if at == text.len() => text.push(byte),
        2 => text[at] = byte,
        _ => drop(text.remove(at)),
    }
    text
}
