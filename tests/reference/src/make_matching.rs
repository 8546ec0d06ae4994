//! Cases for matching: left sides and arguments small enough to try every assignment.

use crate::element::*;
use crate::invent::*;
use crate::matching::*;
use crate::notation::{bytes, hex, macrodigit};
use crate::worked;
use std::collections::BTreeSet;

/// No case may have more assignments to try than this.
const LIMIT: usize = 100_000;

pub struct Case {
    pub left: Vec<u8>,
    pub argument: Vec<u8>,
    pub fits: Vec<Assignment>,
}

/// The printed line of a match.
pub fn line(found: &Option<Assignment>) -> String {
    let Some(values) = found else { return "no\n".to_owned() };
    let letter = |kind| ["s", "t", "e"][usize::from(kind - S)];
    let parts = values.iter().map(|((kind, number), value)| format!(" {}{}={}", letter(*kind), number, hex(value)));
    format!("yes{}\n", parts.collect::<String>())
}

/// Left sides and arguments thought out one by one: the small ones, look-alikes, brackets, order, limits.
const CHOSEN: &str = "
    : / : 'a / : ( ) / 'a : / s0 : / t0 : / e0 : / e0 e1 e0 : / e0 : 'ab ( 97 ) #1 / s0 t0 e0 : 'a / s0 : ( )
    / s15 t15 e15 : 'a ( 'b ) 'c ( ( ) ) / t0 : ( ( 'a ) 'b ) / ( ) : ( ) / ( ) : ( ( ) ) / ( e0 ) : ( )
    / 'a : 97 / 'a : #97 / #97 : 97 / #97 : #24832 / s0 s0 : #97 97 / s0 s0 : 97 97 / s0 s1 : 'a 'a
    / #1284 e0 : ( ) #1284 / 67372036 : 67372036 / 67372036 ( ) : 67372036 67372036 / 0 e0 0 : 0 256 0
    / ( e0 ) : ( ) ( ) / e0 ( e1 ) e2 : ( 'a ) ( 'b ) / e0 ( 'b e1 ) e2 : ( 'a ) ( 'b ) ( 'bc )
    / ( e0 ) ( e0 ) : ( 'ab ) ( 'ab ) / ( e0 ) ( e0 ) : ( 'ab ) ( 'ba ) / e0 ( e0 ) : 'ab ( 'ab )
    / ( e1 e2 ) e1 : ( 'aab ) 'aa / ( e1 e2 ) e3 e2 : ( 'ab ) 'bb / ( e1 'b e2 ) e1 e3 : ( 'abab ) 'abaab
    / ( e0 e1 ) e2 e0 e2 : ( 'ab ) 'aba / ( e0 e1 ) e1 e2 : ( 'aa ) 'aa / ( ( e0 ) e1 ) e2 e0 : ( ( 'a ) 'b ) 'ba
    / ( ( e0 s0 e1 ) e2 s0 ) e3 : ( ( 'ab ) 'cb ) 'd / ( ( ( e0 ) ) ) : ( ( ( ) ) ) / ( ( ( e0 ) ) ) : ( ( ) )
    / t0 e0 t0 : ( 'a ) 'b ( 'a ) / t0 e0 t0 : ( 'a ) 'b ( 'a ) ( ) / t0 e1 ( e2 t0 e3 ) : ( 'a ) 'b ( 'c ( 'a ) )
    / e0 t0 t0 e1 : 'ab ( ) ( ) 'aa / e0 s0 s0 e1 : 'abcda / e0 s0 e1 s0 : 'abcab / e0 ( ( e1 ) ) : ( ( 'a ) 'a ) ( ( 'a ) )
    / e0 e1 e2 : 'abc / e0 e1 'c : 'abc / e0 e0 e0 : 'ababab / e0 e0 e0 : 'abababa / e0 e1 e0 e1 : 'abab / e0 e1 e1 e0 : 'abba
    / e0 'a e1 'a e2 'a e3 : 'aaaa / e0 'a e1 'a e2 'a e3 : 'aabb / e0 'ab : 'ababab / e0 'abc : 'ababab / 'ab e0 : 'ababab
    / s0 s1 s2 s3 s0 : 'abcda / s0 s1 s2 s3 s0 : 'abcdb / 100*'a : 100*'a / 100*'a : 99*'a / 100*s0 : 100*'a
    / 100*s0 : 99*'a 'b / 50*( 50*) : 50*( 50*) / 49*( e0 t0 49*) : 49*( 'ab 49*) / 49*( e0 t0 49*) : 49*( 49*)
    / 100*e0 : 100*'a / 100*e0 : 101*'a / s0-15 : 8*'ab / s0-15 'b : 8*'ab 'a / s0-15 : 7*'ab / t0-15 : 8*'ab
    / e0-15 : 'a / s0-5 t0-5 e0-3 : 12*'a / e0-14 s0 : / 49*e0 'x : 'x / 49*e0 'x s0 : 49*'b 'x 'z
";

pub fn cases() -> Vec<Case> {
    let dice = Dice::new(2);
    let mut seen = BTreeSet::new();
    let mut list = Vec::new();
    let worked = worked::MATCHES.iter().map(|(left, argument, _)| (*left, *argument));
    let chosen = CHOSEN.split(" / ").map(|pair| pair.split_once(':').expect("left : argument"));
    for (left, argument) in worked.chain(chosen) {
        let (left, argument) = (bytes(left), bytes(argument));
        let fits = all_fits(&left, &argument, LIMIT).expect("the chosen cases are small");
        seen.insert((left.clone(), argument.clone()));
        list.push(Case { left, argument, fits });
    }
    while list.len() < 2400 {
        let (left, argument) = if dice.once_in(2) { entangled(&dice) } else { invented(&dice) };
        let Some(fits) = all_fits(&left, &argument, LIMIT) else { continue };
        let case = Case { left, argument, fits };
        // Every other case is to fit, half of those in more ways than one, and some tell outer variables first.
        let wanted = match list.len() % 16 {
            15 => case.tells()[1],
            place if place % 2 == 0 => case.fits.is_empty(),
            place => case.fits.len() > place % 4 / 2,
        };
        if wanted && seen.insert((case.left.clone(), case.argument.clone())) {
            list.push(case);
        }
    }
    list
}

/// Variables in brackets and out of them, on few different symbols: many fits, and the order matters.
fn entangled(dice: &Dice) -> (Vec<u8>, Vec<u8>) {
    let few = |size, more: &[&str]| {
        balanced(dice, size, &[], &|dice| bytes(dice.pick(&[&["'a", "'b"][dice.below(2)..], more].concat())))
    };
    let pool = [dice.pick(&["e1", "s1", "t1"]), dice.pick(&["e2", "s1", "t2"]), "e3"];
    let (inner, outer) = (few(2 + dice.below(3), &pool[..2]), few(2 + dice.below(3), &pool[dice.below(2)..]));
    let left = [vec![OPEN], inner, vec![CLOSE], outer].concat();
    let argument = argument_for(dice, &left, &|size| few(size, &[]));
    let changed = changed(dice, &argument);
    (left, if dice.once_in(3) { changed } else { argument })
}

/// A left side of few variables and an argument made from it, most often with one thing changed.
fn invented(dice: &Dice) -> (Vec<u8>, Vec<u8>) {
    let pool = some_variables(dice, 1 + dice.below(4));
    let left = side(dice, 1 + dice.below(9), &[], &pool);
    let argument = argument_for(dice, &left, &|size| field(dice, size, &[]));
    match dice.below(8) {
        0 => (left, field(dice, dice.below(8), &[])),
        1 | 2 => (left, argument),
        _ => (left, changed(dice, &argument)),
    }
}

/// An argument that the left side fits, its values made of runs; a run of one element is a symbol.
fn argument_for(dice: &Dice, left: &[u8], run: &dyn Fn(usize) -> Vec<u8>) -> Vec<u8> {
    let value = |kind| match kind {
        E => run(dice.below(4)),
        T if dice.once_in(2) => [vec![OPEN], run(dice.below(3)), vec![CLOSE]].concat(),
        _ => run(1),
    };
    put_in(left, &variables(left).into_iter().map(|v| (v, value(v.0))).collect())
}

/// One symbol changed in one of six ways, the last one as often as any other: so that many fail late.
fn changed(dice: &Dice, argument: &[u8]) -> Vec<u8> {
    let symbols: Vec<_> = elements(argument).into_iter().filter(|(_, element)| is_symbol(element[0])).collect();
    let Some(last) = symbols.last() else { return symbol(dice) };
    let (start, old) = if dice.once_in(2) { *last } else { dice.pick(&symbols) };
    let (before, after) = (&argument[..start], &argument[start + old.len()..]);
    match dice.below(6) {
        0 => [before, &symbol(dice), after].concat(),
        1 => [before, after].concat(),
        2 => [before, old, old, after].concat(),
        3 => [before, &[OPEN], old, &[CLOSE], after].concat(),
        4 => [before, &macrodigit(u32::from(old[1])), after].concat(),
        _ => [before, old, &symbol(dice), after].concat(),
    }
}

/// E-variables that occur outside brackets before those that occur only inside, as document 000 had it.
fn outer_first(left: &[u8]) -> Vec<Variable> {
    let all = elements(left);
    let depth = |end: usize| {
        let count = |kind| all[..end].iter().filter(|(_, element)| element[0] == kind).count();
        count(OPEN) - count(CLOSE)
    };
    let mut order = e_variables(left);
    order.sort_by_key(|v| (0..all.len()).filter(|at| *all[*at].1 == [v.0, v.1]).map(depth).min());
    order
}

impl Case {
    /// Does the first fit differ from: the last one (longest first), outer variables first, right to left?
    pub fn tells(&self) -> [bool; 3] {
        let order = e_variables(&self.left);
        let backwards: Vec<Variable> = order.iter().rev().copied().collect();
        let first = first_fit(&self.left, &self.fits);
        [
            self.fits.iter().max_by_key(|fit| e_lengths(&order, fit)),
            self.fits.iter().min_by_key(|fit| e_lengths(&outer_first(&self.left), fit)),
            self.fits.iter().min_by_key(|fit| e_lengths(&backwards, fit)),
        ]
        .map(|other| other != first.as_ref())
    }
}
