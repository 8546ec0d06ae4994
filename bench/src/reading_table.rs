//! Reading rules as text: ours, the plain reader and the fast one, timed in one run.

use crate::fast::{self, Reading};
use crate::measure::{best_rounds, ROUND};
use crate::ours;
use crate::text::{read_rules, Answer};
use crate::texts::{self, Text};
use std::hint::black_box;
use std::time::Instant;

/// So many texts are read between two looks at the clock.
const BATCH: u32 = 8;

type Reader = fn(&[u8], &mut [u8], &mut [u8]) -> Reading;

fn plain(text: &[u8], program: &mut [u8], names: &mut [u8]) -> Reading {
    let Answer { code, program: made, list, place } = read_rules(text, program.len(), names.len());
    for (lent, written) in [(program, &made), (names, &list)] {
        lent.fill(0);
        lent[..written.len()].copy_from_slice(written);
    }
    Reading { code, program: made.len(), names: list.len(), place }
}

/// The buffers of one reader.
struct Bench<'a> {
    text: &'a Text,
    reader: Reader,
    program: Vec<u8>,
    names: Vec<u8>,
}

impl<'a> Bench<'a> {
    fn new(text: &'a Text, reader: Reader) -> Bench<'a> {
        Bench { text, reader, program: vec![0xEE; text.room], names: vec![0xEE; text.room] }
    }

    fn read(&mut self) -> Reading {
        (self.reader)(black_box(&self.text.bytes), &mut self.program, &mut self.names)
    }

    /// The mean over one round of readings, in nanoseconds.
    fn round(&mut self) -> f64 {
        let (start, mut readings) = (Instant::now(), 0);
        loop {
            for _ in 0..BATCH {
                black_box(self.read());
            }
            readings += BATCH;
            let passed = start.elapsed();
            if passed > ROUND {
                return passed.as_nanos() as f64 / f64::from(readings);
            }
        }
    }
}

/// Times are nanoseconds a text.
struct Measured {
    reading: Reading,
    ours: f64,
    fast: f64,
    plain: Option<f64>,
}

fn measure(text: &Text, with_plain: bool) -> Measured {
    let mut sides = [ours::read, fast::read, plain].map(|reader| Bench::new(text, reader));
    let reading = compare(&mut sides, text);
    let [ours, fast] = best_rounds(|side| sides[side].round());
    let plain = with_plain.then(|| sides[2].round());
    Measured { reading, ours, fast, plain }
}

/// Reads with all and stops everything where they differ or the text is refused.
fn compare(sides: &mut [Bench; 3], text: &Text) -> Reading {
    let readings = sides.each_mut().map(Bench::read);
    for (side, reading) in sides.iter().zip(&readings) {
        let same = *reading == readings[0] && side.program == sides[0].program && side.names == sides[0].names;
        assert!(same && reading.code == fast::DONE, "{} {}: {readings:?}", text.name, text.bytes.len());
    }
    readings[0]
}

/// Measures and prints row by row.
pub fn table(words: &[String], with_plain: bool) {
    let texts = texts::all(|name| words.is_empty() || words.iter().any(|word| name.contains(&word[..])));
    if texts.is_empty() {
        return;
    }
    println!("\nnanoseconds a text, and a byte of it");
    println!(
        "{:16} {:>6} {:>6} {:>7} {:>12} {:>10} {:>10} {:>10} {:>10} {:>10}",
        "workload", "bytes", "names", "program", "plain", "fast", "ours", "fast/byte", "ours/byte", "ours/fast"
    );
    let rows: Vec<Measured> = texts.iter().map(|text| row(text, with_plain)).collect();
    print_ratios(&texts, &rows);
}

fn row(text: &Text, with_plain: bool) -> Measured {
    let measured = measure(text, with_plain);
    let Measured { reading, ours, fast, plain } = &measured;
    let (bytes, names, program) = (text.bytes.len(), reading.names / 16, reading.program);
    let plain = plain.map_or("-".to_owned(), |time| format!("{time:.0}"));
    let a_byte = |time: &f64| time / bytes as f64;
    print!("{:16} {bytes:>6} {names:>6} {program:>7} {plain:>12} {fast:>10.0} {ours:>10.0}", text.name);
    println!(" {:>10.2} {:>10.2} {:>10.2}", a_byte(fast), a_byte(ours), ours / fast);
    measured
}

fn print_ratios(texts: &[Text], rows: &[Measured]) {
    let ratio = |row: &Measured| row.ours / row.fast;
    let mean = (rows.iter().map(|row| ratio(row).ln()).sum::<f64>() / rows.len() as f64).exp();
    let (text, worst) = texts.iter().zip(rows).max_by(|a, b| ratio(a.1).total_cmp(&ratio(b.1))).expect("a row");
    println!("\ngeometric mean of ours/fast: {mean:.2}");
    println!("worst ours/fast: {:.2} ({} {})", ratio(worst), text.name, text.bytes.len());
}
