//! Packing step by step: the four cases of the rules, in their order.

use super::{ED, LONGEST_RUN};

/// What packing does at one place of the data.
#[derive(Debug, Clone, PartialEq, Eq)]
pub struct PackStep {
    /// The case that holds there, 1 to 4.
    pub case: u32,
    pub written: Vec<u8>,
    /// How many bytes of the data it takes.
    pub taken: usize,
}

/// The step at a place; none where the data have no byte.
pub fn pack_step(data: &[u8], at: usize) -> Option<PackStep> {
    let left = data.get(at..)?;
    let byte = *left.first()?;
    let n = left.iter().take_while(|b| **b == byte).count();
    Some(match (byte, n) {
        (ED, 2..) => code(1, n, ED),
        (ED, 1) => plain(2, &left[..left.len().min(2)]),
        (_, 5..) => code(3, n, byte),
        _ => plain(4, &left[..1]),
    })
}

/// All steps of the data, from the left.
pub fn pack_steps(data: &[u8]) -> Vec<PackStep> {
    let mut steps = Vec::new();
    let mut at = 0;
    while let Some(step) = pack_step(data, at) {
        at += step.taken;
        steps.push(step);
    }
    steps
}

/// A step that writes a code for what is left of a run, as far as a code goes.
fn code(case: u32, n: usize, byte: u8) -> PackStep {
    let taken = n.min(LONGEST_RUN);
    PackStep {
        case,
        written: vec![ED, ED, taken as u8, byte],
        taken,
    }
}

/// A step that writes bytes as they are.
fn plain(case: u32, bytes: &[u8]) -> PackStep {
    PackStep {
        case,
        written: bytes.to_vec(),
        taken: bytes.len(),
    }
}
