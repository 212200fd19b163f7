//! Calls of the library, each compared with the reference: the answer and every byte lent.

pub mod explain;
pub mod files;
pub mod formats;
pub mod journal;
mod known;
pub mod library;
pub mod offsets;
pub mod seen;
pub mod view;

use crate::report::Outcome;
use std::collections::BTreeSet;
use std::hint::black_box;

/// Adds what is wrong at a place, if anything.
pub fn note(wrong: &mut Vec<String>, place: &str, what: Option<String>) {
    wrong.extend(what.map(|what| format!("{place}: {what}")));
}

pub fn answer(wrong: &mut Vec<String>, given: u32, number: u32) {
    if given != number {
        wrong.push(format!("answer {given}, should be {number}"));
    }
}

/// What is wrong with the number in the middle cell or with the guards beside it, if anything, after a call.
pub fn cell_difference(cells: [u64; 3], guard: u64, number: u64) -> Option<String> {
    let [before, given, after] = black_box(cells);
    match given == number {
        _ if [before, after] != [guard; 2] => Some("a cell beside it was changed".into()),
        true => None,
        false => Some(format!("{given}, should be {number}")),
    }
}

pub fn outcome(wrong: Vec<String>) -> Outcome {
    match wrong.is_empty() {
        true => Ok(()),
        false => Err(wrong.join("; ")),
    }
}

/// A group saw each of these numbers.
pub fn each_seen(seen: &BTreeSet<u32>, due: impl IntoIterator<Item = u32>) -> Outcome {
    match due.into_iter().find(|number| !seen.contains(number)) {
        Some(number) => Err(format!("{number} was never seen")),
        None => Ok(()),
    }
}

/// What a group knows of a file before it is compared.
pub fn expect(answer: u32, number: u32) -> Outcome {
    if answer == number {
        return Ok(());
    }
    Err(format!("the reference answers {answer}, not {number}"))
}
