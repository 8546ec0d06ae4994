//! The workloads for reading: rules as text, made to be exactly so long.

/// A text and the length of each of its two buffers.
pub struct Text {
    pub name: &'static str,
    pub bytes: Vec<u8>,
    pub room: usize,
}

/// A name, what makes the line with this number, and the lengths of the texts.
type Row = (&'static str, fn(usize) -> String, &'static [usize]);

const LENGTHS: &[usize] = &[1_000, 8_000, 65_536];

/// A character takes one byte of text and two of the program, so a longer text of strings would find no room.
const OF_STRINGS: &[usize] = &[1_000, 8_000, 32_000];

const ROWS: [Row; 9] = [
    ("read-small", few_names, &[200]),
    ("read-few-names", few_names, LENGTHS),
    ("read-many-names", many_names, LENGTHS),
    ("read-one-bucket", one_bucket, LENGTHS),
    ("read-functions", functions, LENGTHS),
    ("read-sentences", |_| "'a' eX = A eX;\n".to_owned(), LENGTHS),
    ("read-strings", strings, OF_STRINGS),
    ("read-numbers", numbers, LENGTHS),
    ("read-comments", comments, LENGTHS),
];

pub fn all(wanted: impl Fn(&str) -> bool) -> Vec<Text> {
    let mut list = Vec::new();
    for (name, line, lengths) in ROWS.into_iter().filter(|row| wanted(row.0)) {
        for length in lengths {
            list.push(Text { name, bytes: text(line, *length), room: room(*length) });
        }
    }
    list
}

/// Longer than what is written, as a planner's is, but not so long that clearing it hides a short text.
fn room(length: usize) -> usize {
    match length {
        0..=1_000 => 4_096,
        1_001..=8_000 => 16_384,
        _ => 65_536,
    }
}

/// One function of as many lines as fit, and the blanks that are missing; lines that are functions begin by ending it.
fn text(line: fn(usize) -> String, length: usize) -> Vec<u8> {
    let mut text = String::from("Go {\n = ;\n");
    for number in 0.. {
        let more = line(number);
        if text.len() + more.len() + 2 > length {
            break;
        }
        text += &more;
    }
    text += "}\n";
    text += &" ".repeat(length - text.len());
    text.into_bytes()
}

/// Sentences as people write them.
fn few_names(number: usize) -> String {
    let lines = [
        "  s.Key e.1 (s.Key e.Value) e.2 = e.Value <Find s.Key e.2>;\n",
        "  (e.Scopes) t.Other e.Rest = t.Other <Expand (e.Scopes) e.Rest>;\n",
        "  'p' s.Key e.1 = (Column 'p' s.Key) Unknown 120;\n",
    ];
    lines[number % 3].to_owned()
}

/// Two new names a sentence, 4,095 in the longest text.
fn many_names(number: usize) -> String {
    format!("Column{number:04} e.X = Value{number:04} e.X;\n")
}

/// As many, but all in one bucket of our index, which mixes by 31 and has 8,192: the worst that a text can do to it.
fn one_bucket(number: usize) -> String {
    let [column, value] = ["Column", "Value"].map(|word| in_first_bucket(&format!("{word}{number:04}")));
    format!("  {column} e.X = {value} e.X;\n")
}

/// The stem with four letters or digits that bring it there.
fn in_first_bucket(stem: &str) -> String {
    let mix = |hash: usize, byte: u8| (31 * hash + usize::from(byte)) % 8_192;
    let start = stem.bytes().fold(0, mix);
    let nth = |number: usize| b"0123456789abcdefghijklmnopqrstuvwxyz"[number % 36];
    let end = |number: usize| [36 * 36 * 36, 36 * 36, 36, 1].map(|place| nth(number / place));
    let found = (0..).map(end).find(|end| end.iter().fold(start, |hash, byte| mix(hash, *byte)) == 0);
    stem.chars().chain(found.expect("there are many").map(char::from)).collect()
}

fn functions(number: usize) -> String {
    format!("}}\nFn{number:04} {{ e.X = ;")
}

fn strings(number: usize) -> String {
    let letters = |count| "refalmachine".chars().cycle().skip(number % 12).take(count).collect::<String>();
    format!("  '{}' = \"{}\" '{}''{}';\n", letters(90), letters(250), letters(60), letters(70))
}

fn numbers(number: usize) -> String {
    format!("  {number} 7 42 e.X = 4294967295 1000000 e.X 0000{number};\n")
}

fn comments(number: usize) -> String {
    let rule = "* ---------------------------------------------------------------------\n";
    let said = "/* What the customer pays, and why;\n        the contract's price comes first. */";
    let indent = " ".repeat(20);
    format!("{rule}* {number}. A view: its own aliases go before those around it.\n{indent}{said}\n\t{indent}= ;\n")
}
