//! The manual's own programs, with runs worked out by the manual or by hand; each file of `tests/manual` is one.
//!
//! A file begins with words about where it comes from. Then come parts, each under a line `--- heading`:
//! `program` the Refal text; `names` the numbers that names have; `bytes` the program again, in hex;
//! `start` a field; after it what is left, under the answer's heading: `paused after 2`, `done after 5`,
//! `no match after 3 at 0` or `no function after 1 at 8`, where `at` gives the place.

use crate::machine::*;
use crate::notation::spaced_hex;
use crate::text::{read, Names};

macro_rules! programs {
    ($($name:literal)*) => { &[$(($name, include_str!(concat!("../../manual/", $name)))),*] };
}

/// File names and what stands in the files.
pub const FILES: &[(&str, &str)] = programs!(
    "ackermann.txt"
    "binary-addition.txt"
    "blanks-outside-quotes.txt"
    "blanks.txt"
    "choice.txt"
    "chpm-by-search.txt"
    "chpm-by-symbols.txt"
    "chpm-in-brackets.txt"
    "chpm-with-pointer.txt"
    "correction.txt"
    "equality.txt"
    "fab.txt"
    "insertion-sort.txt"
    "intersection.txt"
    "look-up.txt"
    "matching.txt"
    "order-of-words.txt"
    "pairing.txt"
    "palindrome.txt"
    "path-in-tree.txt"
    "paths-in-graph.txt"
    "precedence-kept.txt"
    "repeated-symbols.txt"
    "reverse.txt"
    "string-kept.txt"
    "substring-a-z.txt"
    "translation-of-lines.txt"
    "translation.txt"
    "unary-addition.txt"
);

/// What the file says of a run with this budget: the answer and the field.
struct Outcome {
    budget: u32,
    answer: Answer,
    field: Vec<u8>,
}

pub struct Run {
    pub start: Vec<u8>,
    outcomes: Vec<Outcome>,
}

impl Run {
    pub fn budgets(&self) -> impl Iterator<Item = u32> + '_ {
        self.outcomes.iter().map(|outcome| outcome.budget)
    }
}

pub struct Program {
    pub bytes: Vec<u8>,
    pub runs: Vec<Run>,
}

/// All programs; stops everything if a text does not give its bytes, or a run not what the file says.
pub fn programs() -> Vec<Program> {
    let read = FILES.iter().map(|(name, text)| program(text).map_err(|fault| format!("tests/manual/{name}: {fault}")));
    let (good, bad): (Vec<_>, Vec<_>) = read.partition(Result::is_ok);
    let faults: Vec<String> = bad.into_iter().filter_map(Result::err).collect();
    assert!(faults.is_empty(), "{}", faults.join("\n"));
    good.into_iter().flatten().collect()
}

/// The Refal texts alone.
pub fn texts() -> impl Iterator<Item = &'static str> {
    FILES.iter().flat_map(|(_, text)| parts(text)).filter(|(heading, _)| *heading == "program").map(|(_, body)| body)
}

fn program(text: &str) -> Result<Program, String> {
    let mut names = Names::default();
    let mut program = Program { bytes: Vec::new(), runs: Vec::new() };
    let (mut listed, mut hex) = ("", "");
    for (heading, body) in parts(text) {
        match heading {
            "program" => program.bytes = read(body, &mut names)?,
            "names" => listed = body,
            "bytes" => hex = body,
            "start" => program.runs.push(Run { start: read(body, &mut names)?, outcomes: Vec::new() }),
            _ => {
                let outcome = outcome(heading, read(body, &mut names)?)?;
                program.runs.last_mut().ok_or("an answer stands before any start")?.outcomes.push(outcome);
            }
        }
    }
    same("names", &names.list(), listed)?;
    same("bytes", &spaced_hex(&program.bytes), hex)?;
    program.confirm()?;
    Ok(program)
}

/// Headings and what stands under each.
fn parts(text: &str) -> impl Iterator<Item = (&str, &str)> {
    let parts = text.split("\n--- ").skip(1);
    parts.map(|part| part.split_once('\n').unwrap_or((part, "")))
}

/// Lines may be broken anywhere.
fn same(what: &str, made: &str, written: &str) -> Result<(), String> {
    let equal = made.split_whitespace().eq(written.split_whitespace());
    equal.then_some(()).ok_or(format!("the {what} are {made}"))
}

fn outcome(heading: &str, field: Vec<u8>) -> Result<Outcome, String> {
    let unknown = || format!("unknown heading {heading}");
    let (words, numbers) = heading.split_once(" after ").ok_or_else(unknown)?;
    let (steps, place) = numbers.split_once(" at ").unwrap_or((numbers, "0"));
    let steps = steps.parse().map_err(|_| unknown())?;
    let code = match words {
        "done" => DONE,
        "paused" => PAUSED,
        "no match" => NO_MATCH,
        "no function" => NO_FUNCTION,
        _ => return Err(unknown()),
    };
    // A run that ends by itself has budget to spare.
    let budget = if code == PAUSED { steps } else { steps + 1_000 };
    let place = place.parse().map_err(|_| unknown())?;
    Ok(Outcome { budget, answer: Answer { code, steps, used: field.len(), place }, field })
}

impl Program {
    fn confirm(&self) -> Result<(), String> {
        for (number, run) in self.runs.iter().enumerate() {
            for outcome in &run.outcomes {
                let fault = |what: String| format!("start {}, budget {}: {what}", number + 1, outcome.budget);
                let (answer, field) = self.left_by(&run.start, outcome.budget);
                if answer != outcome.answer {
                    return Err(fault(format!("{answer:?}, the file says {:?}", outcome.answer)));
                }
                same("fields left", &spaced_hex(&field), &spaced_hex(&outcome.field)).map_err(fault)?;
            }
            let last = run.outcomes.last().ok_or(format!("start {} has no answer", number + 1))?;
            (last.answer.code != PAUSED).then_some(()).ok_or(format!("start {} has no end", number + 1))?;
        }
        (!self.runs.is_empty()).then_some(()).ok_or("no start".to_owned())
    }

    fn left_by(&self, start: &[u8], budget: u32) -> (Answer, Vec<u8>) {
        let mut field = start.to_vec();
        field.resize(4_096, 0);
        let mut scratch = vec![0; 4_096];
        let answer = run(&self.bytes, &mut field, start.len(), &mut scratch, budget);
        field.truncate(answer.used);
        (answer, field)
    }
}
