//! Cases for reading rules: every doubtful place, byte and limit, texts invented and damaged, and the largest sizes.

use crate::invent::{program, Dice};
use crate::machine::{DONE, LONGEST};
use crate::make_machine::fnv;
use crate::manual;
use crate::readings::{PARTS, TEXTS};
use crate::spelled::{gap, join, spell};
use crate::text::{read_rules, Answer};
use crate::text_laws;
use std::collections::BTreeSet;

/// A text, the lengths of the two buffers, and the byte with which both are filled.
pub struct Case {
    pub sort: &'static str,
    pub text: Vec<u8>,
    pub program_room: usize,
    pub list_room: usize,
    pub fill: u8,
}

impl Case {
    /// The answer's code and the line to print.
    pub fn read(&self) -> (u8, String) {
        let answer = read_rules(&self.text, self.program_room, self.list_room);
        text_laws::confirm(&self.text, &answer);
        let Answer { code, program, list, place } = answer;
        let hash = |written: &[u8], room: usize| match code {
            DONE => fnv(&[written, &vec![0; room - written.len()]].concat()),
            _ => fnv(&vec![self.fill; room]),
        };
        let hashes = [hash(&program, self.program_room), hash(&list, self.list_room)];
        let line = format!("{code} {} {} {place} {:08X} {:08X}\n", program.len(), list.len(), hashes[0], hashes[1]);
        (code, line)
    }
}

pub struct Cases {
    pub dice: Dice,
    list: Vec<Case>,
}

pub fn cases() -> Vec<Case> {
    let mut cases = Cases { dice: Dice::new(14), list: Vec::new() };
    cases.printed();
    cases.readings();
    cases.every_byte();
    cases.next_to_tokens();
    cases.variable_limits();
    cases.element_limits();
    cases.string_limits();
    cases.identifier_limits();
    cases.macrodigit_limits();
    cases.invented();
    cases.damaged();
    cases.cut();
    cases.soup();
    cases.rooms();
    cases.sizes();
    cases.large();
    let mut seen = BTreeSet::new();
    cases.list.retain(|case| seen.insert((case.text.clone(), case.program_room, case.list_room)));
    cases.list
}

/// The text with a part put in for `@`.
pub fn put(frame: &str, part: &[u8]) -> Vec<u8> {
    let (before, after) = frame.split_once('@').expect("a frame has its spot");
    [before.as_bytes(), part, after.as_bytes()].concat()
}

impl Cases {
    pub fn with_rooms(&mut self, sort: &'static str, text: &[u8], program_room: usize, list_room: usize) {
        let fill = self.dice.byte();
        self.list.push(Case { sort, text: text.to_vec(), program_room, list_room, fill });
    }

    /// With room for a good text, and any room at all for a bad one.
    pub fn add(&mut self, sort: &'static str, text: &[u8]) {
        let answer = read_rules(text, LONGEST, LONGEST);
        let more = [0, 0, 1, 5, 40];
        let rooms = [answer.program.len(), answer.list.len()].map(|used| (used + self.dice.pick(&more)).min(LONGEST));
        self.with_rooms(sort, text, rooms[0], rooms[1]);
    }

    /// Programs of the papers and of this repository.
    fn printed(&mut self) {
        let p = "Find { s.0 e.1 (s.0 t.0) e.2 = t.0; s.0 e.1 = ; }";
        let tri = "Tri { e.0 = e.0 e.0 e.0; }";
        let views = include_str!("../../../examples/nested-views/rules.ref");
        for text in manual::texts().chain([p, tri, views]) {
            self.add("printed programs", text.as_bytes());
            // The manual sets a semicolon behind some functions, which may stand between two only.
            self.add("printed programs, a semicolon behind", format!("{};\n", text.trim_end()).as_bytes());
            self.add("printed programs, lines ended by CR LF", text.replace('\n', "\r\n").as_bytes());
            self.add("printed programs, lines ended by CR", text.replace('\n', "\r").as_bytes());
        }
    }

    fn readings(&mut self) {
        let frames = ["F{@=;}", "F{sX tX eX s1 s2 s3=@;}", "@", "F{=;}@", "F@{=;}", "F{(@)=}", "F{eX=<F @>;eX=}"];
        for (sort, parts) in PARTS {
            for (at, part) in parts.split('¦').enumerate() {
                for frame in [frames[0], frames[1], frames[2 + at % 5]] {
                    self.add(sort, &put(frame, part.as_bytes()));
                }
            }
        }
        for (sort, texts) in TEXTS {
            for (at, text) in texts.split('¦').enumerate() {
                self.add(sort, text.as_bytes());
                self.add(sort, &put(["* a\n@", "G{=;};@", "/**/@", "G { A = 1 }@"][at % 4], text.as_bytes()));
            }
        }
    }

    fn every_byte(&mut self) {
        let frames = [
            ("every byte in a string", "F{='a@b';}"),
            ("every byte in a string", "F{\"@\"=;}"),
            ("every byte at a token's start", "@"),
            ("every byte at a token's start", "F{A@ =;}"),
            ("every byte at a token's start", "F{eX=(@ );}"),
            ("every byte behind an opening call", "F{=<@ >;}"),
            ("every byte in a comment", "F/*@*/{=;}"),
            ("every byte in a comment", "F\n*@ 'a\n{=;}"),
            ("every byte in the first column", "F{=\n@ /**/\n;}"),
        ];
        for (sort, frame) in frames {
            for byte in 0..=255 {
                self.add(sort, &put(frame, &[byte]));
            }
        }
    }

    /// Bytes at the borders of their classes, close up behind the beginnings of tokens.
    fn next_to_tokens(&mut self) {
        let bytes = b"\0\t\n\r !\"'()*+,-./09:;<=>@AEZ[_`adefrstuz{|}\x7F\x80\xBF\xFF";
        for stem in ["s", "t.", "e1", "sX", "s.X", "t.1", "e.a-", "12", "12.", "12E", "<F", "Ab", "'a'", "/", "/*"] {
            for byte in bytes {
                self.add(
                    "bytes behind a token's beginning",
                    &put("F{s1 s.X t1 sX=@ ;}", &[stem.as_bytes(), &[*byte]].concat()),
                );
            }
        }
    }

    /// Good programs in many spellings; whatever parts the tokens, the bytes are known beforehand.
    fn invented(&mut self) {
        for round in 0..420 {
            let spelled = spell(&self.dice, &program(&self.dice));
            let text = join(&self.dice, &spelled.tokens, round % 3 != 0);
            let close = join(&self.dice, &spelled.tokens, false);
            for text in [&text, &close] {
                let answer = read_rules(text, LONGEST, LONGEST);
                assert!(answer.program == spelled.program && answer.list == spelled.list, "{}", text.escape_ascii());
            }
            self.add("invented programs", &text);
            self.other_tokens(spelled.tokens);
        }
    }

    /// A token too few, too many, at another place or of another sort.
    fn other_tokens(&mut self, mut tokens: Vec<Vec<u8>>) {
        if tokens.is_empty() || tokens.concat().len() > 700 {
            return;
        }
        let (at, other) = (self.dice.below(tokens.len()), self.dice.below(tokens.len()));
        match self.dice.below(4) {
            0 => drop(tokens.remove(at)),
            1 => tokens.insert(at, tokens[other].clone()),
            2 => tokens.swap(at, other),
            _ => tokens[at] = self.any_token(),
        }
        let text = join(&self.dice, &tokens, true);
        self.add("invented programs, a token changed", &text);
    }

    /// Short good texts, for whatever is done to good texts.
    pub fn short_texts(&self, count: usize, longest: usize) -> Vec<Vec<u8>> {
        let some = |_: usize| loop {
            let spelled = spell(&self.dice, &program(&self.dice));
            let text = join(&self.dice, &spelled.tokens, self.dice.once_in(2));
            if (10..longest).contains(&text.len()) {
                return text;
            }
        };
        (0..count).map(some).collect()
    }

    fn damaged(&mut self) {
        let telling = b"'\"*/<>(){}=;.sA1 \n\r$-_@";
        for text in self.short_texts(150, 250) {
            let at = self.dice.below(text.len());
            let byte = if self.dice.once_in(2) { self.dice.byte() } else { self.dice.pick(telling) };
            let mut changed = text.clone();
            changed[at] = byte;
            self.add("damaged, a byte changed", &changed);
            let mut flipped = text.clone();
            flipped[self.dice.below(text.len())] ^= 1 << self.dice.below(8);
            self.add("damaged, a bit changed", &flipped);
            let at = self.dice.below(text.len() + 1);
            self.add("damaged, a byte more", &[&text[..at], &[byte], &text[at..]].concat());
            let at = self.dice.below(text.len());
            self.add("damaged, a byte less", &[&text[..at], &text[at + 1..]].concat());
        }
    }

    fn cut(&mut self) {
        let mut whole = self.short_texts(6, 80);
        whole.push(b"Find { s.0 e.1 (s.0 t.0) e.2 = t.0; s.0 e.1 = ; }".to_vec());
        whole.push(b"*c\nF/*c*/{sX s.1='a''b' 12<G 0(sX)>E5;}\r* c\r;G{e.ab=A_b\"\"'\"'}".to_vec());
        for text in whole {
            for at in 0..=text.len() {
                self.add("cut at every place", &text[..at]);
            }
        }
        for text in manual::texts() {
            for _ in 0..5 {
                self.add("printed programs, cut", &text.as_bytes()[..self.dice.below(text.len())]);
            }
        }
    }

    fn any_token(&self) -> Vec<u8> {
        self.dice.pick(&SOUP.split('¦').collect::<Vec<_>>()).as_bytes().to_vec()
    }

    fn soup(&mut self) {
        for round in 0..500 {
            let mut text = ["", "F{", "F{e1 s1 t1 sX=", "F{=;"][round % 4].as_bytes().to_vec();
            for _ in 0..1 + self.dice.below(14) {
                text.extend(self.any_token());
                if self.dice.once_in(2) {
                    text.extend(gap(&self.dice));
                }
            }
            self.add("soup of tokens", &text);
        }
    }
}

/// Tokens good and bad, thrown together at random; a broken bar parts them.
const SOUP: &str = "F¦Ab¦A-b¦A_B¦E5¦F{¦{¦}¦{=}¦;¦;¦=¦=¦(¦)¦(¦)¦<F¦<Ab¦<¦< F¦>¦>¦'a'¦'ab'¦\"a\"¦''¦''''¦'¦\"¦1¦12¦007\
    ¦4294967295¦4294967296¦1.5¦1E5¦12.¦s1¦sX¦s.x¦t1¦e1¦eX¦e.x¦s.¦s¦t12¦e.Tree¦s1s2¦/**/¦/*¦*/¦\n*a\n¦*¦$¦@¦,¦-¦\u{E9}";
