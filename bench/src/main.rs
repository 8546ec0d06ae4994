//! The benchmark of Odolzagi: ours, the plain reference and the fast one on the same workloads, in one run.
//!
//! `bench/run` builds and starts it; the modes are in `USAGE`.

mod agree;
mod agree_reading;
mod fast;
mod measure;
mod ours;
mod reading_table;
mod texts;
mod workloads;

// The plain reference, as the tests have it.
#[path = "../../tests/reference/src/check.rs"]
mod check;
#[path = "../../tests/reference/src/element.rs"]
mod element;
#[path = "../../tests/reference/src/invent.rs"]
mod invent;
#[path = "../../tests/reference/src/machine.rs"]
mod machine;
#[path = "../../tests/reference/src/make_checks.rs"]
mod make_checks;
#[path = "../../tests/reference/src/make_machine.rs"]
mod make_machine;
#[path = "../../tests/reference/src/make_matching.rs"]
mod make_matching;
#[path = "../../tests/reference/src/manual.rs"]
mod manual;
#[path = "../../tests/reference/src/matching.rs"]
mod matching;
#[path = "../../tests/reference/src/notation.rs"]
mod notation;
#[path = "../../tests/reference/src/spelled.rs"]
mod spelled;
#[path = "../../tests/reference/src/text.rs"]
mod text;
#[path = "../../tests/reference/src/token.rs"]
mod token;
#[path = "../../tests/reference/src/worked.rs"]
mod worked;

use measure::{measure, Measured};
use std::path::Path;
use workloads::Workload;

const USAGE: &str = "\
bench [--no-plain] [NAME...]   times the workloads whose names hold one of these words; all without words
bench agree [CASES]            holds the fast reference against the plain one, from the repository's root";

fn main() {
    let words: Vec<String> = std::env::args().skip(1).collect();
    let (options, words): (Vec<String>, Vec<String>) = words.into_iter().partition(|word| word.starts_with('-'));
    if options.iter().any(|option| option != "--no-plain") {
        eprintln!("{USAGE}");
        std::process::exit(1);
    }
    match words.first().map(String::as_str) {
        Some("agree") => {
            let cases = words.get(1).map_or(100_000, |cases| cases.parse().expect("a number of cases"));
            agree::agree(Path::new("."), cases);
            agree_reading::agree(Path::new("."), cases);
        }
        _ => {
            table(&words, options.is_empty());
            reading_table::table(&words, options.is_empty());
        }
    }
}

/// Measures and prints row by row.
fn table(words: &[String], with_plain: bool) {
    let wanted = |workload: &Workload| words.is_empty() || words.iter().any(|word| workload.name.contains(&word[..]));
    let workloads: Vec<Workload> = workloads::all().into_iter().filter(wanted).collect();
    if workloads.is_empty() {
        return;
    }
    println!("nanoseconds a step; a run without steps counts as one");
    println!(
        "{:16} {:>6} {:>7} {:>12} {:>10} {:>10} {:>10}",
        "workload", "size", "steps", "plain", "fast", "ours", "ours/fast"
    );
    let mut rows = Vec::new();
    for workload in workloads {
        let measured = measure(&workload, with_plain);
        print_row(&workload, &measured);
        rows.push((workload, measured));
    }
    print_growth(&rows);
    print_ratios(&rows);
}

fn print_row(workload: &Workload, measured: &Measured) {
    let Measured { steps, ours, fast, plain } = *measured;
    let plain = plain.map_or("-".to_owned(), |time| format!("{time:.0}"));
    let (fast_step, ours_step) = (measured.a_step(fast), measured.a_step(ours));
    print!("{:16} {:>6} {steps:>7} {plain:>12} {fast_step:>10.1} {ours_step:>10.1}", workload.name, workload.size);
    print!(" {:>10.2}", ours / fast);
    match steps {
        0..10 => println!("   a run: fast {fast:.0}, ours {ours:.0}"),
        _ => println!(),
    }
}

/// How much dearer a step is at the largest size than at the smallest.
fn print_growth(rows: &[(Workload, Measured)]) {
    println!(
        "\ngrowth of a step from the smallest to the largest size\n{:16} {:>10} {:>10}",
        "workload", "fast", "ours"
    );
    for sizes in rows.chunk_by(|a, b| a.0.name == b.0.name) {
        let (small, large) = (&sizes[0].1, &sizes[sizes.len() - 1].1);
        let growth = |time: fn(&Measured) -> f64| large.a_step(time(large)) / small.a_step(time(small));
        println!("{:16} {:>10.1} {:>10.1}", sizes[0].0.name, growth(|m| m.fast), growth(|m| m.ours));
    }
}

fn print_ratios(rows: &[(Workload, Measured)]) {
    let mean = |value: &dyn Fn(&Measured) -> f64| {
        (rows.iter().map(|(_, measured)| value(measured).ln()).sum::<f64>() / rows.len() as f64).exp()
    };
    let ratio = |measured: &Measured| measured.ours / measured.fast;
    let worst = rows.iter().max_by(|a, b| ratio(&a.1).total_cmp(&ratio(&b.1))).expect("a row");
    println!(
        "\ngeometric mean of a step: fast {:.1}, ours {:.1}",
        mean(&|m| m.a_step(m.fast)),
        mean(&|m| m.a_step(m.ours))
    );
    println!("geometric mean of ours/fast: {:.2}", mean(&ratio));
    println!("worst ours/fast: {:.2} ({} {})", ratio(&worst.1), worst.0.name, worst.0.size);
}
