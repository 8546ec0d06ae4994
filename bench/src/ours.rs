//! The proved machine and reader through their C face; without them the fast ones stand in, to try the benchmark.

use crate::fast::{Answer, Reading};

#[cfg(not(without_ours))]
extern "C" {
    fn odolzagi_run(
        program: *const u8,
        program_len: usize,
        field: *mut u8,
        field_len: usize,
        used: usize,
        scratch: *mut u8,
        scratch_len: usize,
        budget: u32,
        answer: *mut u64,
        answer_len: usize,
    );
    fn odolzagi_read(
        text: *const u8,
        text_len: usize,
        program: *mut u8,
        program_len: usize,
        names: *mut u8,
        names_len: usize,
        answer: *mut u64,
        answer_len: usize,
    );
}

#[cfg(not(without_ours))]
pub fn run(program: &[u8], field: &mut [u8], used: usize, scratch: &mut [u8], budget: u32) -> Answer {
    let mut answer = [0u64; 4];
    // Each pointer comes with its own length, and all of them live through the call.
    unsafe {
        odolzagi_run(
            program.as_ptr(),
            program.len(),
            field.as_mut_ptr(),
            field.len(),
            used,
            scratch.as_mut_ptr(),
            scratch.len(),
            budget,
            answer.as_mut_ptr(),
            answer.len(),
        );
    }
    let [code, steps, used, place] = answer;
    Answer { code: code as u8, steps: steps as u32, used: used as usize, place: place as usize }
}

#[cfg(without_ours)]
pub fn run(program: &[u8], field: &mut [u8], used: usize, scratch: &mut [u8], budget: u32) -> Answer {
    crate::fast::run(program, field, used, scratch, budget)
}

#[cfg(not(without_ours))]
pub fn read(text: &[u8], program: &mut [u8], names: &mut [u8]) -> Reading {
    let mut answer = [0u64; 4];
    // As in `run`.
    unsafe {
        odolzagi_read(
            text.as_ptr(),
            text.len(),
            program.as_mut_ptr(),
            program.len(),
            names.as_mut_ptr(),
            names.len(),
            answer.as_mut_ptr(),
            answer.len(),
        );
    }
    let [code, program, names, place] = answer;
    Reading { code: code as u8, program: program as usize, names: names as usize, place: place as usize }
}

#[cfg(without_ours)]
pub fn read(text: &[u8], program: &mut [u8], names: &mut [u8]) -> Reading {
    crate::fast::read(text, program, names)
}
