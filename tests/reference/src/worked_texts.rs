//! Texts whose answers are worked by hand from documents 01 and 02 and manual 003; no reader gave them.

use crate::notation::bytes;
use crate::text::{read_rules, Answer, RECORD};

enum Read {
    /// The program in short hand, and the names.
    Good(&'static str, &'static str),
    /// The place of the bad token.
    Bad(usize),
}

use Read::{Bad, Good};

const NOTHING: Read = Good("{0 = ; } .", "F");

const BLANKS_AND_COMMENTS: &[(&[u8], Read)] = &[
    // Space, tab and the two line ends are blanks; no other byte below 32 is.
    (b"F\t{\r=\n; }", NOTHING),
    (b"F\x0B{=;}", Bad(1)),
    (b"F{=;}\x0C", Bad(5)),
    (b"\0", Bad(0)),
    (b"F{=;}\x1A", Bad(5)),
    // Bytes that begin no token.
    (b"F{=@;}", Bad(3)),
    (b"F{a=;}", Bad(2)),
    (b"F{= , ;}", Bad(4)),
    (b"F{=:;}", Bad(3)),
    (b"F{=\xC3\xA9;}", Bad(3)),
    // A star in the first column makes the line a comment.
    (b"* c\nF{=;}", NOTHING),
    (b"F{=;} * c", Bad(6)),
    (b"F{=;}\n*/ c", NOTHING),
    (b"/* a\n*/F{=;}", NOTHING),
    (b"*/* a\nF{=;}", NOTHING),
    (b"F{=;}/* */* c", Bad(10)),
    (b"F{=\n*;}\n;}", NOTHING),
    // A lone CR ends a line too.
    (b"F{='a\rb';}", Bad(3)),
    (b"F{=;}\r*x\rG{=;}", Good("{0 = ; } {1 = ; } .", "F G")),
    (b"F{=\r\n'a'\r\n;}\r\n", Good("{0 = 'a ; } .", "F")),
    // Comments part tokens and do not nest.
    (b"F/**/{=;}", NOTHING),
    (b"F{=;}/*/", Bad(5)),
    (b"/*/*/F{=;}", NOTHING),
    (b"F{=;}/* /* */ */", Bad(14)),
    (b"F{=A/**/B;}", Good("{0 = #1 #2 ; } .", "F A B")),
    (b"F{='a", Bad(3)),
    (b"F{=/*a", Bad(3)),
    (b"F{=\"a'", Bad(3)),
];

const STRINGS_AND_NUMBERS: &[(&[u8], Read)] = &[
    // A string of no characters makes no element.
    (b"F{''='';}", NOTHING),
    (b"''", Bad(0)),
    (b"F{=;}''", Bad(5)),
    (b"F{=;''}", NOTHING),
    (b"F''{=;}", Bad(1)),
    (b"F{='\\';}", Good("{0 = '\\ ; } .", "F")),
    (b"F{='/**/';}", Good("{0 = '/**/ ; } .", "F")),
    // Doubled quotes.
    (b"F{='a''b';}", Good("{0 = 'a'b ; } .", "F")),
    (b"F{='''';}", Good("{0 = '' ; } .", "F")),
    (b"F{=''';}", Bad(3)),
    (b"F{='a'\"b\";}", Good("{0 = 'ab ; } .", "F")),
    (b"F{=\"a'b\";}", Good("{0 = 'a'b ; } .", "F")),
    (b"F{=\"\"\"\";}", Good("{0 = '\" ; } .", "F")),
    // Real numbers and what resembles them.
    (b"F{=1.5;}", Bad(3)),
    (b"F{=12E5;}", Bad(3)),
    (b"F{=1E5F;}", Bad(3)),
    (b"F{=18E-7;}", Good("{0 = 18 #1 ; } .", "F E-7")),
    (b"F{=18E+15;}", Bad(6)),
    (b"F{e5=1e5;}", Good("{0 e0 = 1 e0 ; } .", "F")),
    (b"F{=12.;}", Bad(5)),
    (b"F{=-1.5;}", Bad(3)),
    (b"F{=12E;}", Good("{0 = 12 #1 ; } .", "F E")),
    // Macrodigits.
    (b"F{=4294967295 004294967295 000;}", Good("{0 = 4294967295 4294967295 0 ; } .", "F")),
    (b"F{=4294967296;}", Bad(3)),
    (b"F{=12Abc 12'a';}", Good("{0 = 12 #1 12 'a ; } .", "F Abc")),
    (b"F{s1=12s.1;}", Good("{0 s0 = 12 s0 ; } .", "F")),
    (b"F{=12abc;}", Bad(5)),
];

const VARIABLES: &[(&[u8], Read)] = &[
    // Without a dot.
    (b"F{s1s2s3=s3s1;}", Good("{0 s0 s1 s2 = s2 s0 ; } .", "F")),
    (b"F{t12=;}", Bad(2)),
    (b"F{eTree=;}", Bad(2)),
    (b"F{sx=;}", Bad(2)),
    (b"F{s1-=;}", Bad(2)),
    (b"F{sA'a'=;}", Good("{0 s0 'a = ; } .", "F")),
    (b"F{sXs=;}", Bad(4)),
    // With a dot.
    (b"F{s.1s.2=;}", Bad(2)),
    (b"F{s.Xs.2=;}", Bad(6)),
    (b"F{s.=;}", Bad(2)),
    (b"F{s. X=;}", Bad(2)),
    (b"F{s.-a=;}", Bad(2)),
    (b"F{s.a-=;}", Good("{0 s0 = ; } .", "F")),
    (b"F{s.12e.x=;}", Bad(2)),
    // Equal indices.
    (b"F{eX e.X e.x=;}", Good("{0 e0 e0 e0 = ; } .", "F")),
    (b"F{s.01 s1 s.001=;}", Good("{0 s0 s0 s0 = ; } .", "F")),
    (b"F{s.A_b s.a-B s.A=;}", Good("{0 s0 s0 s1 = ; } .", "F")),
    (b"F{s.0 s.00 s.O=;}", Good("{0 s0 s0 s1 = ; } .", "F")),
    // An identifier as index is limited, a number is not.
    (b"F{s.abcdefghijklmno=;}", Good("{0 s0 = ; } .", "F")),
    (b"F{s.abcdefghijklmnop=;}", Bad(2)),
    (b"F{s.4294967296 s.00004294967296 s.4294967297=;}", Good("{0 s0 s0 s1 = ; } .", "F")),
    (b"F{sX eX tX=tX eX;}", Good("{0 s0 e0 t0 = t0 e0 ; } .", "F")),
    // Each sentence has its own variables.
    (b"F{sA sB=sB;sB=sB;}", Good("{0 s0 s1 = s1 ; s0 = s0 ; } .", "F")),
    (b"F{sA=;=sA;}", Bad(7)),
    (b"F{=s1;}@", Bad(3)),
];

const NAMES_AND_CALLS: &[(&[u8], Read)] = &[
    (b"F{=<F>;}", Good("{0 = <0 > ; } .", "F")),
    (b"F{=< F>;}", Bad(3)),
    (b"F{=</**/F>;}", Bad(3)),
    (b"F{=<f>;}", Bad(3)),
    (b"F{=<Abcdefghijklmnop>;}", Bad(3)),
    (b"F{<F>=;}", Bad(2)),
    (b"Find{=FIND FiNd;}", Good("{0 = #0 #0 ; } .", "Find")),
    (b"A-{=A_ A--b A__B;}", Good("{0 = #0 #1 #1 ; } .", "A- A--b")),
    (b"F{=Abcdefghijklmno;}", Good("{0 = #1 ; } .", "F Abcdefghijklmno")),
    (b"F{=Abcdefghijklmnop;}", Bad(3)),
    (b"F{=<G H>;}G{=F;}", Good("{0 = <1 #2 > ; } {1 = #0 ; } .", "F G H")),
    (b"Add{='Sub'/*Mul*/Sub;}", Good("{0 = 'Sub #1 ; } .", "Add Sub")),
    (b"F{=;}F{=;}", Good("{0 = ; } {0 = ; } .", "F")),
    // Directives.
    (b"$ENTRY Go{=;}", Bad(0)),
    (b"F{=;}$EXTRN G;", Bad(5)),
    (b"F{=$;}", Bad(3)),
];

const STRUCTURE: &[(&[u8], Read)] = &[
    (b"", Good(".", "")),
    (b" \n/*x*/\n*y", Good(".", "")),
    // Document 01's program P.
    (b"Find { s.0 e.1 (s.0 t.0) e.2 = t.0; s.0 e.1 = ; }", Good("{0 s0 e0 ( s0 t0 ) e1 = t0 ; s0 e0 = ; } .", "Find")),
    // Semicolons between functions.
    (b"F{=;};G{=;}", Good("{0 = ; } {1 = ; } .", "F G")),
    (b";F{=;}", Bad(0)),
    (b"F{=;};;G{=;}", Bad(6)),
    (b"F{=;};", Bad(6)),
    (b"F{=;}; ", Bad(7)),
    // Semicolons between sentences.
    (b"F{=}", NOTHING),
    (b"F{}", Bad(2)),
    (b"F{;}", Bad(2)),
    (b"F{=;;}", Bad(4)),
    (b"F{A}", Bad(3)),
    (b"F{=;A}", Bad(5)),
    (b"F{=(}", Bad(4)),
    (b"F{=<F}", Bad(5)),
    (b"F{(}", Bad(3)),
    (b"F{=A}G{=B}", Good("{0 = #1 ; } {2 = #3 ; } .", "F A G B")),
    // Tokens that fit nowhere.
    (b"F{={;}", Bad(3)),
    (b"}", Bad(0)),
    (b"F{=;}}", Bad(5)),
    (b"'a'", Bad(0)),
    (b"F G{=;}", Bad(2)),
    (b"F;", Bad(1)),
    (b"F=", Bad(1)),
    (b"F{=;}{", Bad(5)),
    // The first bad token counts, malformed or not.
    (b"F{)=;}'a", Bad(2)),
    (b"F{=)@", Bad(3)),
    // Early ends, and last bytes that are malformed instead.
    (b"F", Bad(1)),
    (b"F{", Bad(2)),
    (b"F{=", Bad(3)),
    (b"F{=(", Bad(4)),
    (b"F{=; ", Bad(5)),
    (b"F{=A;/**/", Bad(9)),
    (b"F{s", Bad(2)),
    (b"F{s.", Bad(2)),
    (b"F{=<", Bad(3)),
    (b"F{=;*", Bad(4)),
];

/// Stops everything if the reader disagrees with a text worked by hand.
pub fn confirm() {
    for table in [BLANKS_AND_COMMENTS, STRINGS_AND_NUMBERS, VARIABLES, NAMES_AND_CALLS, STRUCTURE] {
        for (text, read) in table {
            holds(text, read);
        }
    }
    limits();
    rooms();
    let every_sort = read_rules(b"F{='\t\0\x7F\x80\xFF';}", 100, 100);
    assert_eq!(every_sort.program, b"\x0D\0\0\x0B\x01\x09\x01\0\x01\x7F\x01\x80\x01\xFF\x0C\x0E\x0F");
    assert_eq!(every_sort.list, b"\x14F\0\0\0\0\0\0\0\0\0\0\0\0\0\0");
}

fn holds(text: &[u8], read: &Read) {
    let expected = match read {
        Good(program, names) => {
            let record = |name: &str| [&[RECORD], name.as_bytes(), &vec![0; 15 - name.len()]].concat();
            let list = names.split_whitespace().flat_map(record).collect();
            Answer { code: 0, program: bytes(program), list, place: 0 }
        }
        Bad(place) => Answer { code: 8, program: Vec::new(), list: Vec::new(), place: *place },
    };
    assert_eq!(read_rules(text, 65_536, 65_536), expected, "{}", text.escape_ascii());
}

/// The largest numbers of everything, and one more.
fn limits() {
    let a = |count| "a".repeat(count);
    let sixteen = "s1s2s3s4s5s6s7s8t1t2t3t4e1e2e3e4";
    let hundred = "1 ".repeat(100);
    for (text, read) in [
        (format!("F{{='{}';}}", a(255)), Good("{0 = 255*'a ; } .", "F")),
        (format!("F{{='{}';}}", a(256)), Bad(3)),
        (format!("F{{='{}''';}}", a(254)), Good("{0 = 254*'a '' ; } .", "F")),
        (format!("F{{{hundred}=;}}"), Good("{0 100*1 = ; } .", "F")),
        (format!("F{{{hundred}1=;}}"), Bad(202)),
        (format!("F{{{}'ab'=;}}", "1 ".repeat(99)), Bad(200)),
        (format!("F{{='{}' '{}';}}", a(200), a(200)), Good("{0 = 400*'a ; } .", "F")),
        (format!("F{{='{}' '{}';}}", a(200), a(201)), Bad(206)),
        (format!("F{{{sixteen}s1=e4;}}"), Good("{0 s0-7 t0-3 e0-3 s0 = e3 ; } .", "F")),
        (format!("F{{{sixteen}s9=;}}"), Bad(34)),
        (format!("F{{{sixteen}=s9;}}"), Bad(35)),
        (format!("F{{={}1;}}", "0".repeat(1_000)), Good("{0 = 1 ; } .", "F")),
    ] {
        holds(text.as_bytes(), &read);
    }
}

/// The order of refusals: sizes, the text, the room.
fn rooms() {
    for (text, program, list, code) in [
        ("F{=;}", 7, 16, 0),
        ("F{=;}", 6, 16, 4),
        ("F{=;}", 7, 15, 4),
        ("F{=;}", 0, 0, 4),
        ("F{=;}", 65_537, 16, 5),
        ("F{=;}", 7, 65_537, 5),
        ("", 1, 0, 0),
        ("", 0, 0, 4),
        ("@", 0, 0, 8),
        ("@", 65_537, 0, 5),
        (&"@".repeat(65_536), 0, 0, 8),
        (&"@".repeat(65_537), 0, 0, 5),
    ] {
        let answer = read_rules(text.as_bytes(), program, list);
        assert_eq!((answer.code, answer.place), (code, 0), "{program} {list}");
        assert!(code == 0 || answer.program.is_empty() && answer.list.is_empty());
    }
}
