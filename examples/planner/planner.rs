//! The same as planner.c, from Rust: the rules as text, then step by step, then in one run, then a field that is refused.
//! Usage: planner FOLDER

mod odolzagi;

use odolzagi::{names, pointer, read, run, Answer, Code, Reading, Record};
use std::path::Path;

const LONGEST: usize = 65_536;
const BUDGET: u32 = 1_000_000;

/// The program that a text gives; the names that its numbers stand for are printed.
fn read_rules(text: &[u8]) -> Vec<u8> {
    let (mut rules, mut list) = (vec![0; LONGEST], vec![0; LONGEST]);
    let Reading { code, program, names: listed, place } = read(text, &mut rules, &mut list);
    println!("{} {program} {listed} {place}", code as u8);
    let numbered = names(&list[..listed]).enumerate().map(|(number, name)| format!(" #{number} {name}"));
    println!("{}", numbered.collect::<String>());
    rules.truncate(program);
    rules
}

/// Names as #number, since the start has some that the rules have not.
fn shown(mut field: &[u8]) -> String {
    let mut text = String::new();
    while let Some((kind, rest)) = field.split_first() {
        let width = [0, 1, 2, 4, 0, 0, 2].get(usize::from(*kind)).copied().unwrap_or(0);
        let (body, behind) = rest.split_at(rest.len().min(width));
        let number = body.iter().rev().fold(0u32, |n, byte| n << 8 | u32::from(*byte));
        text += &match kind {
            1 => format!(" '{}'", char::from(number as u8)),
            2 => format!(" #{number}"),
            3 => format!(" {number}"),
            4 => " (".to_string(),
            5 => " )".to_string(),
            6 => format!(" <#{number}"),
            _ => " >".to_string(),
        };
        field = behind;
    }
    text
}

fn step_by_step(program: &[u8], mut field: Vec<u8>, used: usize) {
    let mut scratch = vec![0; LONGEST];
    let mut record = Record::fresh(used);
    while record.code == Code::Paused {
        println!("{}", shown(&field[..record.used]));
        record.call(program, &mut field, &mut scratch);
    }
    println!("{}", shown(&field[..record.used]));
    println!("code {}, place {}", record.code as u8, record.place);
}

fn print(answer: &Answer) {
    println!("{} {} {} {}", answer.code as u8, answer.steps, answer.used, answer.place);
}

fn one_run(program: &[u8], mut field: Vec<u8>, used: usize) {
    let answer = run(program, &mut field, used, &mut vec![0; LONGEST], BUDGET);
    print(&answer);
    let hex: Vec<String> = field[..answer.used].iter().map(|byte| format!("{byte:02X}")).collect();
    println!("{}", hex.join(" "));
}

/// A variable cannot stand in a field.
fn refused(program: &[u8], mut field: Vec<u8>, used: usize) {
    field[0] = 8;
    let answer = run(program, &mut field, used, &mut vec![0; LONGEST], BUDGET);
    print(&answer);
    println!("{} bytes from place {} on", pointer(&answer, program, &field).len(), answer.place);
}

fn main() -> std::io::Result<()> {
    let folder = std::env::args().nth(1).expect("usage: planner FOLDER");
    let file = |name| std::fs::read(Path::new(&folder).join(name));
    let program = read_rules(&file("rules.ref")?);
    println!("the bytes of rules.bin: {}", if program == file("rules.bin")? { "yes" } else { "no" });
    let mut field = file("start.bin")?;
    let used = field.len();
    field.resize(LONGEST, 0);
    step_by_step(&program, field.clone(), used);
    one_run(&program, field.clone(), used);
    refused(&program, field, used);
    Ok(())
}
