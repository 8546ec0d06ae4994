//! Matching, twice: by the definition, trying every assignment there is, and by plain backtracking.

use crate::element::*;
use std::collections::{BTreeMap, BTreeSet};

/// Kind and number together name a variable.
pub type Variable = (u8, u8);
/// Ordered by kind, then number, which is also the order of the printed line.
pub type Assignment = BTreeMap<Variable, Vec<u8>>;

/// The different variables of a side, in the order of first occurrence through all brackets.
pub fn variables(side: &[u8]) -> Vec<Variable> {
    let mut list = Vec::new();
    for (_, element) in elements(side) {
        if is_variable(element[0]) && !list.contains(&(element[0], element[1])) {
            list.push((element[0], element[1]));
        }
    }
    list
}

pub fn put_in(side: &[u8], values: &Assignment) -> Vec<u8> {
    let mut out = Vec::new();
    for (_, element) in elements(side) {
        match is_variable(element[0]) {
            true => out.extend(&values[&(element[0], element[1])]),
            false => out.extend(element),
        }
    }
    out
}

/// Everything in the argument that a variable of this kind could stand for.
fn candidates(kind: u8, argument: &[u8]) -> Vec<Vec<u8>> {
    let mut found = BTreeSet::new();
    // A run may begin before any element or at the very end.
    let starts = elements(argument).iter().map(|(at, _)| *at).chain([argument.len()]).collect::<Vec<_>>();
    for start in starts {
        let rest = &argument[start..];
        let mut end = 0;
        if kind == E {
            found.insert(Vec::new());
        }
        while let Some(length) = term_length(&rest[end..]) {
            end += length;
            if kind == E || kind == T || is_symbol(rest[0]) {
                found.insert(rest[..end].to_vec());
            }
            if kind != E {
                break;
            }
        }
    }
    found.into_iter().collect()
}

/// All assignments that fit, by trying every combination; None where there are more than `limit` to try.
pub fn all_fits(left: &[u8], argument: &[u8], limit: usize) -> Option<Vec<Assignment>> {
    let names = variables(left);
    let choices: Vec<Vec<Vec<u8>>> = names.iter().map(|v| candidates(v.0, argument)).collect();
    let product = choices.iter().try_fold(1usize, |product, c| product.checked_mul(c.len()))?;
    if product > limit {
        return None;
    }
    // Each element of the left side is one of the variables or stands for itself.
    let variable = |element: &[u8]| names.iter().position(|v| *element == [v.0, v.1]);
    let parts: Vec<_> = elements(left).into_iter().map(|(_, element)| (variable(element), element)).collect();
    let mut fits = Vec::new();
    let mut values: Vec<&[u8]> = vec![&[]; names.len()];
    for mut combination in 0..product {
        for (value, choice) in values.iter_mut().zip(&choices) {
            *value = &choice[combination % choice.len()];
            combination /= choice.len();
        }
        // Putting the values in must give exactly the argument.
        let put = parts.iter().map(|(which, element)| which.map_or(*element, |which| values[which]));
        let rest = put.into_iter().try_fold(argument, |rest, part| rest.strip_prefix(part));
        if rest == Some(&[]) {
            fits.push(names.iter().copied().zip(values.iter().map(|value| value.to_vec())).collect());
        }
    }
    Some(fits)
}

pub fn e_variables(left: &[u8]) -> Vec<Variable> {
    variables(left).into_iter().filter(|v| v.0 == E).collect()
}

/// Numbers of terms of the e-values, in the given order of variables.
pub fn e_lengths(order: &[Variable], fit: &Assignment) -> Vec<usize> {
    order.iter().map(|v| count_terms(&fit[v])).collect()
}

/// The first fit by the definition; at most one can be first.
pub fn first_fit(left: &[u8], fits: &[Assignment]) -> Option<Assignment> {
    let order = e_variables(left);
    let first = fits.iter().min_by_key(|fit| e_lengths(&order, fit))?;
    let equals = fits.iter().filter(|fit| e_lengths(&order, fit) == e_lengths(&order, first)).count();
    assert_eq!(equals, 1, "two assignments are first");
    Some(first.clone())
}

/// By the definition; the caller keeps the case small.
pub fn brute(left: &[u8], argument: &[u8]) -> Option<Assignment> {
    first_fit(left, &all_fits(left, argument, usize::MAX).expect("a small case"))
}

/// Ordinary backtracking, left to right through all brackets, shortest e-value first.
pub fn plain(left: &[u8], argument: &[u8]) -> Option<Assignment> {
    let mut values = Assignment::new();
    fit_rest(left, argument, &mut values).then_some(values)
}

fn fit_rest(left: &[u8], argument: &[u8], values: &mut Assignment) -> bool {
    if left.is_empty() {
        return argument.is_empty();
    }
    let element = first_element(left);
    let left = &left[element.len()..];
    if !is_variable(element[0]) {
        return argument.strip_prefix(element).is_some_and(|rest| fit_rest(left, rest, values));
    }
    let variable = (element[0], element[1]);
    // No element's bytes begin another's, so equal bytes here mean equal terms.
    if let Some(value) = values.get(&variable) {
        return argument.strip_prefix(&value[..]).is_some_and(|rest| fit_rest(left, rest, values));
    }
    let mut end = 0;
    if variable.0 != E {
        match term_length(argument) {
            Some(length) if variable.0 == T || is_symbol(argument[0]) => end = length,
            _ => return false,
        }
    }
    loop {
        values.insert(variable, argument[..end].to_vec());
        if fit_rest(left, &argument[end..], values) {
            return true;
        }
        values.remove(&variable);
        match term_length(&argument[end..]) {
            Some(length) if variable.0 == E => end += length,
            _ => return false,
        }
    }
}
