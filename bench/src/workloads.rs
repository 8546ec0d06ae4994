//! The workloads: rules beside a start that grows with a size. Where the rules grow too, they are made here.

use crate::text::{read, Names};
use std::fmt::Write;

/// A buffer for each of the three sizes, so that clearing it does not hide a short run.
const ROOMS: [usize; 3] = [4_096, 16_384, 65_536];
const ENOUGH: u32 = 1_000_000;

/// One workload at one size, in bytes.
pub struct Workload {
    pub name: &'static str,
    pub size: usize,
    pub program: Vec<u8>,
    pub start: Vec<u8>,
    pub room: usize,
    pub budget: u32,
    /// Runs of one step each, as the desk does them, instead of one run.
    pub by_desk: bool,
}

enum Rules {
    Text(&'static str),
    Made(fn(usize) -> String),
}

/// A name, its rules, its start by size, and three sizes.
type Row = (&'static str, Rules, fn(usize) -> String, [usize; 3]);

macro_rules! text {
    ($name:literal) => {
        Rules::Text(include_str!(concat!("../workloads/", $name, "/rules.ref")))
    };
}

const SYMBOLS: [usize; 3] = [100, 1_000, 10_000];

fn rows() -> Vec<Row> {
    vec![
        ("nested-views", text!("nested-views"), views, [20, 80, 320]),
        ("split", text!("split"), |n| call("Split", &"abcdefghi+".repeat(n / 10)), SYMBOLS),
        ("plus-at-the-end", text!("plus-at-the-end"), |n| call("Far", &(letters(n) + &"+".repeat(50))), SYMBOLS),
        ("copy", text!("copy"), |n| call("Copy", &letters(n)), SYMBOLS),
        ("reverse", text!("reverse"), |n| call("Reverse", &letters(n)), SYMBOLS),
        ("gather-in-front", text!("gather-in-front"), |n| format!("<Gather () '{}'>", letters(n)), SYMBOLS),
        ("gather-behind", text!("gather-behind"), |n| format!("<Gather () '{}'>", letters(n)), SYMBOLS),
        ("from-the-end", text!("from-the-end"), |n| call("Back", &letters(n)), SYMBOLS),
        ("palindrome", text!("palindrome"), |n| call("Palindrome", &palindrome(n)), SYMBOLS),
        ("long-prefix", text!("long-prefix"), |n| format!("'{}' {}", letters(n), call("Count", &ones(100))), SYMBOLS),
        ("long-suffix", text!("long-suffix"), |n| format!("{} '{}'", call("Count", &ones(100)), letters(n)), SYMBOLS),
        ("side-by-side", text!("side-by-side"), |n| "<Swap 'ab'>".repeat(n), [80, 800, 8_000]),
        ("functions", Rules::Made(many_functions), |n| format!("<Fn0 '{}'>", letters(n % 7 + 3)), [50, 500, 4_500]),
        ("deep-brackets", text!("deep-brackets"), deep, SYMBOLS),
        ("table", text!("table"), |n| table(n, n), [20, 200, 2_000]),
        ("absent-key", text!("table"), |n| table(n, 2 * n), [20, 200, 2_000]),
        ("halves", text!("halves"), |n| call("Halve", &"a".repeat(n)), [128, 1_024, 8_192]),
        ("substring", text!("substring"), substring, SYMBOLS),
        ("twice-the-same", text!("twice-the-same"), distinct_then_pairs, [20, 60, 180]),
        ("wide-sentence", Rules::Made(wide_sentence), wide_start, [25, 50, 100]),
        ("last-sentence", Rules::Made(many_sentences), |_| format!("<Pick Go Last '{}'>", ones(100)), [10, 100, 1_000]),
        ("sort", text!("sort"), |n| format!("<Sort () {}>", "1 0 0 1 1 ".repeat(n / 5)), [100, 500, 2_500]),
        ("counter", text!("counter"), |n| call("Down", &format!("1{}", "0".repeat(n - 1))), [4, 8, 12]),
        ("doubling", text!("doubling"), |_| call("Double", "a"), ROOMS),
    ]
}

pub fn all() -> Vec<Workload> {
    let mut list = Vec::new();
    for (name, rules, start, sizes) in rows() {
        for (size, room) in sizes.into_iter().zip(ROOMS) {
            list.push(workload(name, &rules, start, size, room, ENOUGH));
        }
    }
    for (size, room) in [4, 16, 64].into_iter().zip(ROOMS) {
        let desk = workload("desk", &text!("nested-views"), views, size, room, ENOUGH);
        list.push(Workload { by_desk: true, ..desk });
    }
    checks(&mut list);
    list
}

fn workload(
    name: &'static str,
    rules: &Rules,
    start: fn(usize) -> String,
    size: usize,
    room: usize,
    budget: u32,
) -> Workload {
    let mut names = Names::default();
    let text = match rules {
        Rules::Text(text) => (*text).to_owned(),
        Rules::Made(made) => made(size),
    };
    let mut bytes = |text: &str| read(text, &mut names).unwrap_or_else(|fault| panic!("{name}: {fault}"));
    let (program, start) = (bytes(&text), bytes(&start(size)));
    Workload { name, size, program, start, room, budget, by_desk: false }
}

/// Checking alone: a budget of 0, a long program with no field, or a long field with a tiny program.
fn checks(list: &mut Vec<Workload>) {
    let tiny = Rules::Text("Go { = ; }");
    let [small, middle, large] = [1_000, 8_000, 65_536];
    for size in [small, middle, large] {
        let program = workload("check-program", &Rules::Made(long_program), |_| String::new(), size, 0, 0);
        list.push(program);
    }
    for (name, start) in [("check-field", long_field as fn(usize) -> String), ("check-string", long_string)] {
        for size in [small, middle, large] {
            list.push(workload(name, &tiny, start, size, size, 0));
        }
    }
}

fn call(function: &str, text: &str) -> String {
    format!("<{function} '{text}'>")
}

fn letters(count: usize) -> String {
    "refalmachine".chars().cycle().take(count).collect()
}

fn ones(count: usize) -> String {
    "I".repeat(count)
}

fn palindrome(count: usize) -> String {
    let half = letters(count / 2);
    half.chars().chain(half.chars().rev()).collect()
}

fn deep(depth: usize) -> String {
    format!("<Peel {}{}>", "(".repeat(depth), ")".repeat(depth))
}

/// Views within views: each adds its aliases to those around it and asks for four columns.
fn views(aliases: usize) -> String {
    let levels = (aliases as f64).sqrt() as usize;
    let each = aliases / levels;
    let mut text = String::from("<Expand () ");
    for level in 0..levels {
        text += "(View (";
        for alias in level * each..(level + 1) * each {
            write!(text, "({alias} (Item Bolt))").expect("a string takes it");
        }
        text += ")";
        // The nearest alias, the farthest, one half way, and one that nobody has.
        for alias in [level * each, (level + 1) * each - 1, (level + 1) * each / 2, aliases] {
            write!(text, "(Column {alias} Item)").expect("a string takes it");
        }
    }
    text + &")".repeat(levels) + ">"
}

/// A table of so many entries, and twenty keys; the first is the last entry's, or one past it.
fn table(entries: usize, last: usize) -> String {
    let keys: String = (0..20).map(|key| format!("{} ", last - 1 - key % 10)).collect();
    let rows: String = (0..entries).map(|key| format!("({key} 'v')")).collect();
    format!("<Ask ({keys}) {rows}>")
}

/// A known string of eight letters, eleven times in a long one.
fn substring(count: usize) -> String {
    let stretch = letters(count / 11);
    format!("<Take-out ('needless') '{}'>", format!("{stretch}needless").repeat(11))
}

/// Different symbols, then the last ten of them again.
fn distinct_then_pairs(count: usize) -> String {
    let symbols: String = (0..count).chain(count - 10..count).map(|symbol| format!("{symbol} ")).collect();
    format!("<Twice {symbols}>")
}

/// Each function calls another, far away in the program; all are called in one run.
fn many_functions(count: usize) -> String {
    let stride = (count * 2 / 3..).find(|stride| gcd(*stride, count) == 1).expect("one below");
    let next = |which: usize| (which + stride) % count;
    let line = |which: usize| match next(which) {
        0 => format!("Fn{which} {{ e.1 = ; }}\n"),
        next => format!("Fn{which} {{ e.1 = <Fn{next} e.1>; }}\n"),
    };
    (0..count).map(line).collect()
}

fn gcd(a: usize, b: usize) -> usize {
    if b == 0 {
        a
    } else {
        gcd(b, a % b)
    }
}

/// A left side of so many elements, and four times as many on the right; what is too much is forgotten.
fn wide_sentence(elements: usize) -> String {
    let row: String = (1..=12).map(|number| format!("s.{number} ")).collect();
    let turned: String = (2..=12).chain([1]).map(|number| format!("s.{number} ")).collect();
    let rest = letters(elements - 16);
    let forgotten = "s.3 s.1 s.4 'w' ".repeat((3 * elements - 2) / 4);
    format!(
        "Wide {{ ('I' e.1) {row} '{rest}' = <Forget {forgotten}> <Wide (e.1) {turned} '{rest}'>; () e.1 = ; }}
        Forget {{ e.1 = ; }}"
    )
}

fn wide_start(elements: usize) -> String {
    format!("<Wide ('{}') 'abcdefghijkl{}'>", ones(200), letters(elements - 16))
}

/// So many sentences that begin alike; the last but one fits until the end.
fn many_sentences(count: usize) -> String {
    let others: String = (0..count).map(|number| format!("s.1 K{number} e.2 = K{number};\n")).collect();
    format!("Pick {{ {others} s.1 Last 'I' e.2 = <Pick s.1 Last e.2>; s.1 Last = ; }}")
}

/// Functions as people write them, and one more that makes the program exactly so long.
fn long_program(bytes: usize) -> String {
    const FUNCTION: usize = 51;
    let function = |number: usize| {
        format!(
            "Fn{number} {{ s.1 e.2 (s.1 e.3) e.4 = e.3 <Fn{number} s.1 e.4>; 'stop' e.1 = (e.1); e.1 = Unknown; }}\n"
        )
    };
    let count = (bytes - 1) / FUNCTION - 1;
    // A function and a sentence take six bytes, a character two, a name three.
    let rest = bytes - 1 - count * FUNCTION - 6;
    let name = if rest % 2 == 1 { "Odd" } else { "" };
    let characters = "p".repeat(if rest % 2 == 1 { (rest - 3) / 2 } else { rest / 2 });
    (0..count).map(function).collect::<String>() + &format!("Pad {{ = {name} '{characters}'; }}")
}

/// Names, numbers, strings, brackets and calls, and a string that makes the field exactly so long.
fn long_field(bytes: usize) -> String {
    const CALL: usize = 34;
    "<Go ((Item Bolt) (Price 120) 'M6x20')>".repeat(bytes / CALL) + &long_string(bytes % CALL)
}

fn long_string(bytes: usize) -> String {
    format!("'{}'", letters(bytes / 2))
}
