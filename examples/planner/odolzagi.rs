//! A safe wrapper over the library for C. Slices carry true lengths and do not overlap, so what is left to check here are
//! the numbers that come back.

#[derive(Clone, Copy, Debug, PartialEq, Eq)]
pub enum Code {
    Done,
    Paused,
    NoMatch,
    NoFunction,
    NoRoom,
    BadSizes,
    BadProgram,
    BadField,
    BadText,
}

const CODES: [Code; 9] = [
    Code::Done,
    Code::Paused,
    Code::NoMatch,
    Code::NoFunction,
    Code::NoRoom,
    Code::BadSizes,
    Code::BadProgram,
    Code::BadField,
    Code::BadText,
];

#[derive(Clone, Copy, Debug, PartialEq, Eq)]
pub struct Answer {
    pub code: Code,
    pub steps: u32,
    pub used: usize,
    pub place: usize,
}

/// The support desk's record.
#[derive(Clone, Copy, Debug, PartialEq, Eq)]
pub struct Record {
    pub used: usize,
    pub code: Code,
    pub place: usize,
}

/// What came of reading a text: bytes of the program and of the name list, both 0 where the code is not `Done`.
#[derive(Clone, Copy, Debug, PartialEq, Eq)]
pub struct Reading {
    pub code: Code,
    pub program: usize,
    pub names: usize,
    pub place: usize,
}

/// A byte that says what it is, then the name in 15 bytes.
pub const NAME_RECORD: usize = 16;

mod face {
    extern "C" {
        pub fn odolzagi_run(
            program: *const u8,
            program_len: usize,
            field: *mut u8,
            field_len: usize,
            used: usize,
            scratch: *mut u8,
            scratch_len: usize,
            budget: u32,
            answer: *mut u64,
            answer_len: usize,
        );
        pub fn odolzagi_desk(
            record: *mut u64,
            record_len: usize,
            program: *const u8,
            program_len: usize,
            field: *mut u8,
            field_len: usize,
            scratch: *mut u8,
            scratch_len: usize,
        );
        pub fn odolzagi_pointer(
            code: u64,
            used: usize,
            place: usize,
            program: *const u8,
            program_len: usize,
            field: *const u8,
            field_len: usize,
            part: *mut u64,
            part_len: usize,
        );
        pub fn odolzagi_read(
            text: *const u8,
            text_len: usize,
            program: *mut u8,
            program_len: usize,
            names: *mut u8,
            names_len: usize,
            answer: *mut u64,
            answer_len: usize,
        );
    }
}

fn code(number: u64) -> Code {
    CODES[usize::try_from(number).expect("a code is below 9")]
}

fn size(number: u64) -> usize {
    usize::try_from(number).expect("a length or a place is a usize")
}

/// Expands the first `used` bytes of the field in at most `budget` steps.
pub fn run(program: &[u8], field: &mut [u8], used: usize, scratch: &mut [u8], budget: u32) -> Answer {
    let mut a = [0; 4];
    // SAFETY: every pointer comes with its own slice's length, and no two slices overlap, three being borrowed for writing.
    unsafe {
        face::odolzagi_run(
            program.as_ptr(),
            program.len(),
            field.as_mut_ptr(),
            field.len(),
            used,
            scratch.as_mut_ptr(),
            scratch.len(),
            budget,
            a.as_mut_ptr(),
            a.len(),
        );
    }
    Answer {
        code: code(a[0]),
        steps: u32::try_from(a[1]).expect("at most the budget"),
        used: size(a[2]),
        place: size(a[3]),
    }
}

impl Record {
    pub fn fresh(used: usize) -> Record {
        Record { used, code: Code::Paused, place: 0 }
    }

    /// One step; nothing happens where the code is not `Paused`.
    pub fn call(&mut self, program: &[u8], field: &mut [u8], scratch: &mut [u8]) {
        let mut r = [self.used as u64, self.code as u64, self.place as u64];
        // SAFETY: as in `run`.
        unsafe {
            face::odolzagi_desk(
                r.as_mut_ptr(),
                r.len(),
                program.as_ptr(),
                program.len(),
                field.as_mut_ptr(),
                field.len(),
                scratch.as_mut_ptr(),
                scratch.len(),
            );
        }
        *self = Record { used: size(r[0]), code: code(r[1]), place: size(r[2]) };
    }
}

/// The part of the program or of the field that an answer speaks of.
pub fn pointer<'a>(answer: &Answer, program: &'a [u8], field: &'a [u8]) -> &'a [u8] {
    let mut part = [0; 3];
    // SAFETY: as in `run`.
    unsafe {
        face::odolzagi_pointer(
            answer.code as u64,
            answer.used,
            answer.place,
            program.as_ptr(),
            program.len(),
            field.as_ptr(),
            field.len(),
            part.as_mut_ptr(),
            part.len(),
        );
    }
    let slice = if part[0] == 1 { program } else { field };
    &slice[size(part[1])..][..size(part[2])]
}

/// Reads rules as text into program bytes and the list of their names. It needs up to 256 KB of stack.
pub fn read(text: &[u8], program: &mut [u8], names: &mut [u8]) -> Reading {
    let mut a = [0; 4];
    // SAFETY: as in `run`.
    unsafe {
        face::odolzagi_read(
            text.as_ptr(),
            text.len(),
            program.as_mut_ptr(),
            program.len(),
            names.as_mut_ptr(),
            names.len(),
            a.as_mut_ptr(),
            a.len(),
        );
    }
    Reading { code: code(a[0]), program: size(a[1]), names: size(a[2]), place: size(a[3]) }
}

/// The names of a list that `read` wrote, in the order of their numbers.
pub fn names(list: &[u8]) -> impl Iterator<Item = &str> {
    list.chunks_exact(NAME_RECORD).map(|record| {
        let name = std::str::from_utf8(&record[1..]).expect("a name is ASCII");
        name.trim_end_matches('\0')
    })
}
