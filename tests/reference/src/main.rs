//! The reference of Odolzagi: written from the papers alone, it makes the case files and what they are to give.
//!
//! It needs no package: `rustc -O --edition 2021 tests/reference/src/main.rs -o reference`; `tests/reference/check`
//! builds it and holds the files in the repository against it. The modes are in `USAGE`.

mod check;
mod conditions;
mod element;
mod expand;
mod invent;
mod machine;
mod make_checks;
mod make_long_texts;
mod make_machine;
mod make_matching;
mod make_text_limits;
mod make_texts;
mod manual;
mod matching;
mod notation;
mod planner;
mod readings;
mod spelled;
#[cfg(test)]
mod tests;
mod text;
mod text_laws;
mod token;
mod worked;
mod worked_texts;

use std::collections::BTreeMap;
use std::path::Path;

const USAGE: &str = "\
reference cases DIR                   writes each set's case files into DIR/SET/data, and their print to DIR/SET/stdout
reference manual                      lists the manual's programs, whose runs are confirmed
reference expand DIR                  prints what expand prints for DIR/rules.bin and DIR/start.bin
reference planner DIR                 prints what the planners print for DIR/rules.ref, DIR/rules.bin and DIR/start.bin
reference bytes FILE.ref... OUT.bin   writes the last text's bytes; the texts share one name list
reference names FILE.ref OUT.bin      writes the name list of rules
reference check-brute                 compares the two matchers";

/// A case file and what makes it.
type File = (&'static str, fn(&mut Made));

/// A set for each program that runs cases, with its files in the order in which it runs them.
const SETS: [(&str, &[File]); 2] = [
    ("cases", &[("checks", checks), ("matching", matching), ("machine", machine), ("desk", desk)]),
    ("reading_cases", &[("texts", texts)]),
];

/// A case file, its expected print, and how many cases there are of each sort.
#[derive(Default)]
struct Made {
    cases: Vec<u8>,
    lines: String,
    counts: BTreeMap<String, usize>,
}

impl Made {
    fn number(&mut self, number: usize) {
        self.cases.extend(u32::try_from(number).expect("four bytes hold it").to_le_bytes());
    }

    fn bytes(&mut self, bytes: &[u8]) {
        self.number(bytes.len());
        self.cases.extend(bytes);
    }

    fn start(&mut self, case: &make_machine::Case, last: u32) {
        self.bytes(&case.program);
        self.bytes(&case.buffer);
        self.number(case.used);
        self.number(case.scratch);
        self.cases.push(case.fill);
        self.number(last as usize);
    }

    fn expect(&mut self, lines: &str, sort: String) {
        self.lines += lines;
        *self.counts.entry(sort).or_default() += 1;
    }
}

fn checks(made: &mut Made) {
    for case in make_checks::cases() {
        made.cases.push(case.0);
        made.bytes(&case.1);
        let letter = char::from(case.0);
        match make_checks::fault(&case) {
            None => made.expect("good\n", format!("{letter} good")),
            Some(fault) => made.expect(&format!("{}\n", fault.place), format!("{letter} reason {}", fault.reason)),
        }
    }
}

fn matching(made: &mut Made) {
    for case in make_matching::cases() {
        made.bytes(&case.left);
        made.bytes(&case.argument);
        let sort = ["no", "yes, one fit", "yes, several fits"][case.fits.len().min(2)];
        made.expect(&make_matching::line(&matching::first_fit(&case.left, &case.fits)), sort.to_owned());
        for (other, tells) in ["last or longest first", "outer first", "right to left"].iter().zip(case.tells()) {
            *made.counts.entry(format!("yes, not the fit by {other}")).or_default() += usize::from(tells);
        }
    }
}

fn machine(made: &mut Made) {
    let cases = make_machine::cases();
    for case in &cases {
        made.start(case, case.budget);
        made.lines += &case.run().1;
    }
    made.counts = conditions::confirm(&cases, made.cases.len());
}

fn desk(made: &mut Made) {
    for (case, calls) in make_machine::desk_cases() {
        made.start(&case, calls);
        let (code, lines) = case.desk(calls);
        made.expect(&lines, format!("code {code} at last"));
    }
}

fn texts(made: &mut Made) {
    for case in make_texts::cases() {
        made.bytes(&case.text);
        made.number(case.program_room);
        made.number(case.list_room);
        made.cases.push(case.fill);
        let (code, line) = case.read();
        made.expect(&line, format!("{}: code {code}", case.sort));
        *made.counts.entry(format!("all: code {code}")).or_default() += 1;
    }
}

fn check_brute() {
    let cases = make_matching::cases();
    for case in &cases {
        let (by_search, by_definition) =
            (matching::plain(&case.left, &case.argument), matching::brute(&case.left, &case.argument));
        assert_eq!(by_search, by_definition, "{:?} {:?}", case.left, case.argument);
    }
    println!("{} cases, both matchers agree on all", cases.len());
}

/// The bytes of the last text; names are numbered through all texts.
fn bytes(texts: &[&str], out: &str) -> Result<(), String> {
    let mut names = text::Names::default();
    let mut bytes = Vec::new();
    for path in texts {
        let text = std::fs::read_to_string(path).map_err(|fault| format!("{path}: {fault}"))?;
        bytes = text::read(&text, &mut names).map_err(|fault| format!("{path}: {fault}"))?;
    }
    std::fs::write(out, &bytes).map_err(|fault| format!("{out}: {fault}"))?;
    println!("{} bytes; names {}", bytes.len(), names.list());
    Ok(())
}

/// The name list that reading rules gives.
fn names(rules: &str, out: &str) -> Result<(), String> {
    let text = std::fs::read(rules).map_err(|fault| format!("{rules}: {fault}"))?;
    let answer = text::read_rules(&text, machine::LONGEST, machine::LONGEST);
    if answer.code != machine::DONE {
        return Err(format!("{rules}: code {} at {}", answer.code, answer.place));
    }
    std::fs::write(out, &answer.list).map_err(|fault| format!("{out}: {fault}"))
}

/// Writes a set's case files and their print, and says what is in each.
fn write(directory: &Path, files: &[File]) -> std::io::Result<()> {
    let mut lines = String::new();
    std::fs::create_dir_all(directory.join("data"))?;
    for (name, make) in files {
        let mut made = Made::default();
        make(&mut made);
        std::fs::write(directory.join("data").join(name), &made.cases)?;
        println!("{name}: {} bytes of cases, {} lines expected", made.cases.len(), made.lines.lines().count());
        made.counts.iter().for_each(|(sort, count)| println!("  {sort}: {count}"));
        lines += &made.lines;
    }
    std::fs::write(directory.join("stdout"), lines)
}

fn write_sets(directory: &str) -> Result<(), String> {
    for (set, files) in SETS {
        write(&Path::new(directory).join(set), files).map_err(|fault| format!("{directory}/{set}: {fault}"))?;
    }
    Ok(())
}

fn act(words: &[&str]) -> Result<(), String> {
    match *words {
        ["check-brute"] => check_brute(),
        ["cases", directory] => return write_sets(directory),
        ["manual"] => manual::programs().iter().zip(manual::FILES).for_each(|(_, (name, _))| println!("{name}")),
        ["expand", directory] => print!("{}", expand::expand(Path::new(directory))),
        ["planner", directory] => {
            let text = planner::planner(Path::new(directory)).map_err(|fault| format!("{directory}: {fault}"))?;
            print!("{text}");
        }
        ["names", rules, out] => return names(rules, out),
        ["bytes", ref texts @ .., out] if !texts.is_empty() => return bytes(texts, out),
        _ => return Err(format!("what to do?\n{USAGE}")),
    }
    Ok(())
}

fn main() {
    worked::confirm();
    worked_texts::confirm();
    let words: Vec<String> = std::env::args().skip(1).collect();
    let words: Vec<&str> = words.iter().map(String::as_str).collect();
    if let Err(fault) = act(&words) {
        eprintln!("{fault}");
        std::process::exit(1);
    }
}
