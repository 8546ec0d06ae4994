//! What `expand` has to print for a folder with rules.bin and start.bin.

use crate::machine::{run, Answer, BAD_SIZES, LONGEST};
use crate::notation::spaced_hex;
use std::path::Path;

const BUDGET: u32 = 1_000_000;

pub fn expand(folder: &Path) -> String {
    // A file that cannot be opened counts as empty.
    let file = |name| std::fs::read(folder.join(name)).unwrap_or_default();
    let (program, mut field) = (file("rules.bin"), file("start.bin"));
    let used = field.len();
    if program.len() > LONGEST || used > LONGEST {
        return print(Answer { code: BAD_SIZES, steps: 0, used: 0, place: 0 }, &[]);
    }
    field.resize(LONGEST, 0);
    let answer = run(&program, &mut field, used, &mut vec![0; LONGEST], BUDGET);
    print(answer, &field[..answer.used])
}

fn print(answer: Answer, field: &[u8]) -> String {
    let Answer { code, steps, used, place } = answer;
    format!("{code} {steps} {used} {place}\n{}\n", spaced_hex(field))
}
