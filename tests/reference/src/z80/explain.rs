//! Why a file is refused, found out without its memory: packed data are only counted.

use super::walk::walk;
use crate::memory::PAGE;
use crate::packing::{would_unpack, UnpackAnswer};

/// What an explanation tells; all 0 for a good file.
#[derive(Debug, Clone, Copy, PartialEq, Eq, PartialOrd, Ord, Default)]
pub struct ExplainFigures {
    pub number: u32,
    pub offset: u64,
    /// The ordinal of the block, from 1; a v1 body is 1.
    pub block: u64,
    pub found: u64,
    pub due: u64,
}

pub fn explain(file: &[u8]) -> ExplainFigures {
    explain_by(would_unpack, file)
}

/// The same by any form of packing.
pub fn explain_by(would_unpack: fn(&[u8], usize) -> UnpackAnswer, file: &[u8]) -> ExplainFigures {
    let walked = walk(file, |data, pages| {
        let due = pages.len() * PAGE;
        let answer = match data.is_packed {
            true => would_unpack(data.bytes, due),
            false => UnpackAnswer::of_length(data.bytes.len(), due),
        };
        data.judge(answer, due)
    });
    match walked {
        Ok(_) => ExplainFigures::default(),
        Err(file) => ExplainFigures {
            number: file.refusal.number(),
            offset: file.offset as u64,
            block: file.block as u64,
            found: file.found as u64,
            due: file.due as u64,
        },
    }
}
