//! Cases for reading rules at every limit: of variables, elements and lengths, of the two buffers, and of the text.

use crate::machine::LONGEST;
use crate::make_long_texts;
use crate::make_texts::{put, Cases};
use crate::text::{read_rules, Answer};

impl Cases {
    pub fn variable_limits(&mut self) {
        for kinds in ["s", "t", "e", "ste", "es"] {
            let letter = |n: usize| char::from(kinds.as_bytes()[n % kinds.len()]);
            for count in 15..=18 {
                let apart: Vec<String> = (0..count).map(|n| format!("{}.{n} ", letter(n))).collect();
                // Equal indices of different kinds are different variables.
                let shared: Vec<String> = (0..count).map(|n| format!("{}.v{} ", letter(n), n / kinds.len())).collect();
                for variables in [apart, shared] {
                    let (all, some) = (variables.concat(), variables[..15].concat());
                    let last = &variables[count - 1];
                    for text in [
                        format!("F{{{all}=}}"),
                        format!("F{{{all}{all}={all}{last};}}"),
                        format!("F{{({some}){all}=;{all}=}}"),
                        format!("F{{{some}={all}}}"),
                        format!("F{{=;{some}={last};=;}}"),
                    ] {
                        self.add("limit of variables", text.as_bytes());
                    }
                }
            }
        }
    }

    pub fn element_limits(&mut self) {
        for (limit, frame) in [(100, "F{@=}"), (400, "F{s1=@}"), (100, "F{=;@=;=}"), (400, "G{=}F{s1=@;=}")] {
            for n in limit - 1..=limit + 1 {
                let half = n / 2;
                for text in [
                    "1 ".repeat(n),
                    "(".repeat(half) + &")".repeat(n - half),
                    "A ".repeat(n - 1) + "(",
                    "()".repeat(half),
                    format!("(A {}'')''", "1 ".repeat(n - 3)),
                    "<F>".repeat(half),
                    "<F".repeat(half) + &">".repeat(n - half),
                    "s1".repeat(n),
                ] {
                    self.add("limit of elements", &put(frame, text.as_bytes()));
                }
            }
            self.passing_strings(limit, frame);
        }
    }

    /// Strings that begin before a limit and may end past it.
    fn passing_strings(&mut self, limit: usize, frame: &str) {
        for (left, codes) in [(1, 0), (1, 1), (3, 2), (3, 3), (3, 4), (50, 49), (50, 50), (50, 51), (97, 98), (2, 90)] {
            let string = format!("{}'{}'", "1 ".repeat(limit - left), "a".repeat(codes));
            for text in [string.clone(), format!("{string})"), format!("{string}''"), format!("{string}'b' @")] {
                self.add("strings that pass a limit", &put(frame, text.as_bytes()));
            }
        }
    }

    pub fn string_limits(&mut self) {
        for count in [253, 254, 255, 256, 257, 400] {
            for unit in ["a", "''", "\"", "\\"] {
                let string = format!("'{}'", unit.repeat(count));
                for frame in ["F{=@}", "F{@=}", "F{s1=s1 @;}", "@"] {
                    self.add("limit of a string", &put(frame, string.as_bytes()));
                }
            }
            self.add("limit of a string", &put("F{=\"@\"\"\"}", &vec![0xE9; count]));
            self.add("limit of a string", &put("F{='@", &vec![b'a'; count]));
        }
    }

    pub fn identifier_limits(&mut self) {
        let words = "Abcdefghijklmnopq A-_-_-_-_-_-_-_-_ Z0123456789012345 aBCDEFGHIJKLMNOPQ S.tuvwxyzabcdefgh";
        for word in words.split(' ') {
            for length in 14..=17 {
                for frame in ["@{=}", "F{=@}", "F{@=}", "F{=<@>}", "F{s.@=}", "F{=}@", "F{=12@ }"] {
                    self.add("limit of an identifier", &put(frame, word[..length].as_bytes()));
                }
            }
        }
    }

    pub fn macrodigit_limits(&mut self) {
        let largest = u64::from(u32::MAX);
        for value in (largest - 5..largest + 7).chain([10 * largest, 9_999_999_999, u64::MAX, 2 * largest]) {
            for zeros in [0, 1, 2, 9, 30] {
                let digits = "0".repeat(zeros) + &value.to_string();
                let frame = self.dice.pick(&["F{=@;}", "F{@=;}", "F{(A@)=}", "F{(A @)=}"]);
                self.add("limit of a macrodigit", &put(frame, digits.as_bytes()));
            }
        }
    }

    /// Buffers that hold just enough or too little, and the order of the refusals.
    pub fn rooms(&mut self) {
        let mut texts = self.short_texts(50, 300);
        texts.extend(["", "F{=}", "F{=;}", "F{A=<B C>}", "*"].map(|text| text.as_bytes().to_vec()));
        for text in texts {
            let Answer { program, list, .. } = read_rules(&text, LONGEST, LONGEST);
            let (program, list) = (program.len(), list.len());
            let short = |length: usize| length.saturating_sub(1);
            for (program_room, list_room) in [
                (program, list),
                (short(program), list),
                (program, short(list)),
                (short(program), short(list)),
                (0, list),
                (program, 0),
                (0, 0),
                (program + 1, list + 1),
                (program + self.dice.below(99), list + self.dice.below(99)),
            ] {
                self.with_rooms("room enough or too little", &text, program_room, list_room);
            }
            let bad = [&text[..], b"\n@"].concat();
            self.with_rooms("bad text without room", &bad, 0, 0);
            self.with_rooms("bad text without room", &bad, short(program), list);
        }
    }

    pub fn sizes(&mut self) {
        let mut texts = self.short_texts(16, 60);
        texts.extend(["", "@", "F", "F{=;}", "F{=;};"].map(|text| text.as_bytes().to_vec()));
        for text in texts {
            let more = LONGEST + 2 + self.dice.below(63);
            for (program_room, list_room) in [
                (LONGEST + 1, LONGEST),
                (LONGEST, LONGEST + 1),
                (LONGEST + 1, LONGEST + 1),
                (more, 100),
                (0, more),
                (LONGEST, LONGEST),
                (LONGEST, 16),
            ] {
                self.with_rooms("buffers about the longest", &text, program_room, list_room);
            }
        }
    }

    pub fn large(&mut self) {
        for (text, program_room, list_room) in make_long_texts::texts(&self.dice) {
            self.with_rooms("long texts", &text, program_room, list_room);
        }
    }
}
