//! How often each function gave each number, and what each one must have given.

use crate::report::Outcome;
use reference::journal::{Call, Correction};

/// One more than the highest number of any call.
pub const NUMBERS: usize = 44;

#[derive(Clone, Copy, PartialEq, Eq)]
pub enum CountedFunction {
    Start,
    View,
    Byte,
    Pair,
    Out,
    Undo,
    Redo,
}

impl CountedFunction {
    pub fn of(call: Call) -> CountedFunction {
        match call {
            Call::Correct(Correction::Byte { .. }) => CountedFunction::Byte,
            Call::Correct(Correction::Pair { .. }) => CountedFunction::Pair,
            Call::Correct(Correction::Out { .. }) => CountedFunction::Out,
            Call::Undo => CountedFunction::Undo,
            Call::Redo => CountedFunction::Redo,
        }
    }
}

/// Every number of each function.
const EXPECTED: [(CountedFunction, &str, &[usize]); 7] = [
    (CountedFunction::Start, "start", &[0]),
    (CountedFunction::View, "view", &[0, 20, 21, 30, 31]),
    (CountedFunction::Byte, "byte", &[0, 20, 21, 23, 26, 29]),
    (CountedFunction::Pair, "pair", &[0, 20, 21, 26, 29, 32]),
    (CountedFunction::Out, "out", &[0, 20, 21, 24, 25, 26, 29]),
    (CountedFunction::Undo, "undo", &[0, 20, 21, 27, 28, 29]),
    (CountedFunction::Redo, "redo", &[0, 20, 21, 27, 28, 29]),
];

pub struct NumberCounts {
    counts: [[u64; NUMBERS]; 7],
}

impl Default for NumberCounts {
    fn default() -> NumberCounts {
        NumberCounts {
            counts: [[0; NUMBERS]; 7],
        }
    }
}

impl NumberCounts {
    /// Counts an answer of the library; one that is no number at all is told elsewhere.
    pub fn add(&mut self, function: CountedFunction, number: u32) {
        if let Some(count) = self.counts[function as usize].get_mut(number as usize) {
            *count += 1;
        }
    }

    pub fn calls(&self) -> u64 {
        self.counts.iter().flatten().sum()
    }

    /// Prints the counts. Each function gave each of its numbers and no other, in enough calls.
    pub fn all(&self, least: u64) -> Outcome {
        let mut outcome = Ok(());
        for (function, name, numbers) in EXPECTED {
            let counts = &self.counts[function as usize];
            let given = (0..NUMBERS).filter(|n| counts[*n] > 0);
            let list: Vec<String> = given.map(|n| format!("{n}: {}", counts[n])).collect();
            println!("    {name}  {}", list.join(", "));
            for (number, count) in counts.iter().enumerate() {
                let expected = numbers.contains(&number);
                if expected != (*count > 0) {
                    outcome = Err(format!("{name} answered {number} {count} times"));
                }
            }
        }
        if self.calls() < least {
            outcome = Err(format!("only {} calls", self.calls()));
        }
        outcome
    }
}
