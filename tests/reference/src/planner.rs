//! What the planners in examples/planner have to print for a folder with good rules.ref, rules.bin and start.bin.

use crate::element::{elements, CALL, CHARACTER, CLOSE, MACRODIGIT, NAME, OPEN, S};
use crate::expand::expand;
use crate::machine::{pointer, run, Record, LONGEST, PAUSED};
use crate::text::{read_rules, Answer};
use std::path::Path;

pub fn planner(folder: &Path) -> std::io::Result<String> {
    let program = std::fs::read(folder.join("rules.bin"))?;
    let mut start = std::fs::read(folder.join("start.bin"))?;
    let used = start.len();
    start.resize(LONGEST, 0);
    let reading = reading(&std::fs::read(folder.join("rules.ref"))?, &program);
    Ok(reading + &steps(&program, start.clone(), used) + &expand(folder) + &refused(&program, start, used))
}

/// The answer, the names with their numbers, and whether the text gives the program.
fn reading(text: &[u8], program: &[u8]) -> String {
    let Answer { code, program: read, list, place } = read_rules(text, LONGEST, LONGEST);
    let name = |record: &[u8]| String::from_utf8_lossy(&record[1..]).trim_end_matches('\0').to_owned();
    let names = list.chunks(16).enumerate().map(|(number, record)| format!(" #{number} {}", name(record)));
    let same = if read == program { "yes" } else { "no" };
    let answer = format!("{code} {} {} {place}\n", read.len(), list.len());
    answer + &names.collect::<String>() + &format!("\nthe bytes of rules.bin: {same}\n")
}

fn steps(program: &[u8], mut field: Vec<u8>, used: usize) -> String {
    let mut record = Record::fresh(used);
    let mut lines = shown(&field[..used]);
    while record.code == PAUSED {
        record.call(program, &mut field, &mut vec![0; LONGEST]);
        lines += &shown(&field[..record.used]);
    }
    lines + &format!("code {}, place {}\n", record.code, record.place)
}

fn refused(program: &[u8], mut field: Vec<u8>, used: usize) -> String {
    field[0] = S;
    let a = run(program, &mut field, used, &mut vec![0; LONGEST], 1);
    let part = pointer(a.code, a.used, a.place, program, &field);
    format!("{} {} {} {}\n{} bytes from place {} on\n", a.code, a.steps, a.used, a.place, part.len(), a.place)
}

fn shown(field: &[u8]) -> String {
    let word = |element: &[u8]| match *element {
        [CHARACTER, code] => format!(" '{}'", char::from(code)),
        [NAME, low, high] => format!(" #{}", u16::from_le_bytes([low, high])),
        [MACRODIGIT, a, b, c, d] => format!(" {}", u32::from_le_bytes([a, b, c, d])),
        [OPEN] => " (".to_owned(),
        [CLOSE] => " )".to_owned(),
        [CALL, low, high] => format!(" <#{}", u16::from_le_bytes([low, high])),
        _ => " >".to_owned(),
    };
    elements(field).iter().map(|(_, element)| word(element)).collect::<String>() + "\n"
}
