//! Inventing good programs, fields and sides with dice of a fixed seed.

use crate::element::*;
use crate::matching::{variables, Variable};
use crate::notation::macrodigit;
use std::cell::Cell;

/// A xorshift generator: no time, no outside state, so every run invents the same.
pub struct Dice(Cell<u64>);

impl Dice {
    pub fn new(seed: u64) -> Dice {
        Dice(Cell::new(seed.wrapping_mul(0x9E37_79B9_7F4A_7C15) | 1))
    }

    pub fn below(&self, limit: usize) -> usize {
        let mut state = self.0.get();
        state ^= state << 13;
        state ^= state >> 7;
        state ^= state << 17;
        self.0.set(state);
        ((state >> 24) % limit as u64) as usize
    }

    pub fn byte(&self) -> u8 {
        self.below(256) as u8
    }

    pub fn once_in(&self, turns: usize) -> bool {
        self.below(turns) == 0
    }

    pub fn pick<T: Clone>(&self, from: &[T]) -> T {
        from[self.below(from.len())].clone()
    }

    pub fn rubbish(&self, length: usize) -> Vec<u8> {
        (0..length).map(|_| self.byte()).collect()
    }
}

/// A symbol out of a few, most of which resemble others or brackets byte by byte.
pub fn symbol(dice: &Dice) -> Vec<u8> {
    match dice.below(12) {
        0..=3 => vec![CHARACTER, b'a'],
        4 | 5 => vec![CHARACTER, b'b'],
        6 => vec![NAME, b'a', 0],
        7 => macrodigit(97),
        8 => dice.pick(&[vec![NAME, 0, b'a'], macrodigit(97 << 8), vec![CHARACTER, 0]]),
        9 => dice.pick(&[vec![CHARACTER, OPEN], vec![CHARACTER, CLOSE], vec![CHARACTER, END_CALL]]),
        10 => dice.pick(&[vec![NAME, OPEN, CLOSE], vec![MACRODIGIT, CALL, END_CALL, CLOSE, OPEN]]),
        _ => [vec![MACRODIGIT], dice.rubbish(4)].concat(),
    }
}

/// A balanced run of `size` elements; calls take the given names, and without names there are none.
pub fn balanced(dice: &Dice, size: usize, names: &[u16], atom: &dyn Fn(&Dice) -> Vec<u8>) -> Vec<u8> {
    let (mut out, mut closers, mut count) = (Vec::new(), Vec::new(), 0);
    // Every open bracket has its closing one counted in advance.
    while count + closers.len() < size {
        let two_fit = size - count - closers.len() >= 2;
        match dice.below(9) {
            0 if two_fit => {
                out.push(OPEN);
                closers.push(CLOSE);
            }
            1 | 2 if two_fit && !names.is_empty() => {
                out.push(CALL);
                out.extend(dice.pick(names).to_le_bytes());
                closers.push(END_CALL);
            }
            3 | 4 if !closers.is_empty() => out.extend(closers.pop()),
            _ => out.extend(atom(dice)),
        }
        count += 1;
    }
    out.extend(closers.into_iter().rev());
    out
}

pub fn some_variables(dice: &Dice, count: usize) -> Vec<Variable> {
    let mut list: Vec<Variable> = Vec::new();
    while list.len() < count {
        let variable = (dice.pick(&[S, T, E]), dice.below(16) as u8);
        if !list.contains(&variable) {
            list.push(variable);
        }
    }
    list
}

/// A side with the given variables, each as likely as any, and symbols now and then.
pub fn side(dice: &Dice, size: usize, names: &[u16], variables: &[Variable]) -> Vec<u8> {
    balanced(dice, size, names, &|dice| match variables.is_empty() || dice.once_in(3) {
        true => symbol(dice),
        false => {
            let variable = dice.pick(variables);
            vec![variable.0, variable.1]
        }
    })
}

pub fn field(dice: &Dice, size: usize, names: &[u16]) -> Vec<u8> {
    side(dice, size, names, &[])
}

/// One function with the left sides given; right sides use what is on the left.
pub fn function(dice: &Dice, name: u16, lefts: &[Vec<u8>], right_size: usize, names: &[u16]) -> Vec<u8> {
    let mut out = [vec![HEADER], name.to_le_bytes().to_vec()].concat();
    for left in lefts {
        let right = side(dice, dice.below(right_size + 1), names, &variables(left));
        out.extend([left, &[EQUALS][..], &right, &[END_SENTENCE]].concat());
    }
    out.push(END_FUNCTION);
    out
}

/// A good program of any shape, for the checks only: nobody runs it.
pub fn program(dice: &Dice) -> Vec<u8> {
    let names = [0, 1, 0x0706, 0xFFFF];
    let mut out = Vec::new();
    for _ in 0..dice.below(4) {
        let mut lefts = Vec::new();
        for _ in 0..1 + dice.below(3) {
            let pool = some_variables(dice, dice.below(if dice.once_in(8) { 17 } else { 5 }));
            lefts.push(side(dice, dice.below(if dice.once_in(8) { 101 } else { 9 }), &[], &pool));
        }
        let right_size = if dice.once_in(16) { 100 } else { 10 };
        out.extend(function(dice, dice.pick(&names), &lefts, right_size, &names));
    }
    out.push(END_PROGRAM);
    out
}
