//! Long texts for reading rules, up to and past the longest.

use crate::invent::{program, Dice};
use crate::machine::LONGEST;
use crate::spelled::{join, spell};

/// A text and the lengths of the two buffers.
pub type Long = (Vec<u8>, usize, usize);

pub fn texts(dice: &Dice) -> Vec<Long> {
    let mut list = Vec::new();
    names(&mut list);
    programs(&mut list);
    blanks_and_digits(&mut list);
    early_ends(&mut list);
    many_functions(dice, &mut list);
    list
}

fn ample(text: Vec<u8>) -> Long {
    (text, LONGEST, LONGEST)
}

/// The text with blanks behind it, exactly so long.
fn padded(text: String, length: usize) -> Vec<u8> {
    assert!(text.len() <= length, "a text of {} bytes does not fit {length}", text.len());
    let blanks = length - text.len();
    [text.into_bytes(), vec![b' '; blanks]].concat()
}

/// Different names of so many letters, three at least.
fn different(count: usize, letters: usize) -> Vec<String> {
    let digits = b"0123456789abcdefghijklmnopqrstuvwxyz";
    let name = |n: usize| {
        let first = char::from(b'A' + (n / 36 / 36) as u8);
        let (second, third) = (char::from(digits[n / 36 % 36]), char::from(digits[n % 36]));
        format!("{first}{second}{third}{}", "x".repeat(letters - 3))
    };
    (0..count).map(name).collect()
}

/// One function that has the names on its right sides, as many in a sentence as may be.
fn naming(names: &[String]) -> String {
    let sentences = names.chunks(400).map(|some| format!("={};", some.join(" ")));
    format!("F{{{}}}", sentences.collect::<String>())
}

fn names(list: &mut Vec<Long>) {
    // The function's own name is one more.
    let full = naming(&different(4_095, 3)).into_bytes();
    list.push((full.clone(), LONGEST, LONGEST - 1));
    list.push((full.clone(), 3 + 11 * 2 + 4_095 * 3 + 2 - 1, LONGEST));
    list.push((full.clone(), 3 + 11 * 2 + 4_095 * 3 + 2, LONGEST));
    list.push(([&full[..full.len() - 1], b"=@}"].concat(), LONGEST, LONGEST));
    list.push(ample(naming(&different(4_096, 3)).into_bytes()));
    list.push(ample(padded(naming(&different(4_095, 14)), LONGEST)));
    // As many different names as a text can hold: good, but no list has room for them.
    let most = padded(naming(&different(16_300, 3)), LONGEST);
    list.push((most.clone(), LONGEST, LONGEST));
    list.push(ample([&most[..LONGEST - 1], b"@"].concat()));
    // One and two letters: the names repeat.
    let short: Vec<String> = (0..26_u8).map(|n| char::from(b'A' + n).to_string()).collect();
    let twice: Vec<String> = short.iter().flat_map(|a| (0..10).map(move |n| format!("{a}{n}"))).collect();
    let cycle = |from: &[String], count: usize| from.iter().cycle().take(count).cloned().collect::<Vec<_>>();
    list.push(ample(padded(naming(&cycle(&short, 32_680)), LONGEST)));
    list.push(ample(naming(&cycle(&short, 20_000)).into_bytes()));
    list.push(ample(naming(&cycle(&twice, 9_000)).into_bytes()));
    list.push(ample(format!("F{{={}}}", "Ab".repeat(10_000)).into_bytes()));
}

/// Programs that fill their buffer, or pass it by one byte.
fn programs(list: &mut Vec<Long>) {
    let string = format!("='{}';", "q".repeat(200));
    let filled = |rest: &str| format!("F{{{}{rest}}}", string.repeat(163)).into_bytes();
    list.push(ample(filled("=A;")));
    list.push((filled("=A;"), LONGEST - 1, LONGEST));
    list.push((filled("=A;"), LONGEST, 31));
    list.push(ample(filled("=;=;=;")));
    list.push(ample(filled("=A;=s1;")));
    list.push(ample(padded("A{=;}\n".repeat(10_922), LONGEST)));
    list.push(ample("A{=}".repeat(LONGEST / 4).into_bytes()));
    list.push(ample(padded(format!("F{{{}}}", "=;".repeat(32_765)), LONGEST)));
    let deep = format!("={}{};", "(".repeat(200), ")".repeat(200));
    list.push(ample(format!("F{{{}}}", deep.repeat(40)).into_bytes()));
}

fn blanks_and_digits(list: &mut Vec<Long>) {
    list.push((vec![b' '; LONGEST], 1, 0));
    list.push((vec![b' '; LONGEST + 1], 1, 0));
    list.push(([b"@", &vec![b'\n'; LONGEST][..]].concat(), 100, 100));
    list.push((padded("F{=;}".to_owned(), LONGEST + 63), 7, 16));
    list.push((["/*", &"*'/".repeat(5_000), "*/F{=}"].concat().into_bytes(), 7, 16));
    list.push(ample(format!("F{{={}1;}}", "0".repeat(LONGEST - 6)).into_bytes()));
    list.push(ample(format!("F{{={}4294967296;}}", "0".repeat(20_000)).into_bytes()));
    list.push(ample(format!("F{{={};}}", "9".repeat(20_000)).into_bytes()));
    // An index that is a number has no upper bound.
    let digits = "7".repeat(20_000);
    list.push(ample(format!("F{{s.00{digits} s.{digits}1=s.0{digits};}}").into_bytes()));
    list.push(ample(format!("F{{s.0{digits}=s.{digits}1;}}").into_bytes()));
    list.push(ample(format!("F{{s.x{digits}=;}}").into_bytes()));
}

fn early_ends(list: &mut Vec<Long>) {
    list.push(ample(padded("F{".to_owned(), LONGEST)));
    list.push(ample([&padded("F{=;}".to_owned(), LONGEST - 2)[..], b"/*"].concat()));
    list.push(ample([&padded("F{=".to_owned(), 30_000)[..], b"'"].concat()));
    list.push(ample(format!("F{{='{}';}}", "a".repeat(30_000)).into_bytes()));
    list.push(ample(format!("/*{}", "/*".repeat(10_000)).into_bytes()));
}

/// Invented programs one after the other, whole and with a late byte changed.
fn many_functions(dice: &Dice, list: &mut Vec<Long>) {
    for length in [600, 1_000, 1_500, 2_000, 3_000, 5_000, 8_000, 12_000, 20_000, LONGEST] {
        let mut text = Vec::new();
        loop {
            let more = join(dice, &spell(dice, &program(dice)).tokens, true);
            if text.len() + 1 + more.len() > length {
                break;
            }
            text.push(b'\n');
            text.extend(more);
        }
        text.resize(length, b' ');
        if length <= 12_000 {
            let mut changed = text.clone();
            changed[length - 1 - length / 10] = dice.pick(b"@'}");
            list.push(ample(changed));
        }
        list.push(ample(text));
    }
}
