//! The journal (the correction log): corrections, undo and redo. The model goes by what was asked and has no
//! log; the rules go by the log's bytes, over buffers as the library exports the calls. Neither uses the other.

mod contents;
mod model;
mod rules;
mod step;
#[cfg(test)]
mod tests;
mod view;

pub use contents::Contents;
pub use model::Replay;
pub use rules::{call, start, Buffers};
pub use step::{capacity, Step, STEP};
pub use view::{view, View};

/// A correction as asked.
#[derive(Debug, Clone, Copy, PartialEq, Eq)]
pub enum Correction {
    Byte {
        address: u16,
        value: u8,
    },
    Pair {
        pair: u8,
        value: u16,
    },
    /// An OUT to 7FFD.
    Out {
        value: u8,
    },
}

#[derive(Debug, Clone, Copy, PartialEq, Eq)]
pub enum Call {
    Correct(Correction),
    Undo,
    Redo,
}

/// The bit of the last OUT to 7FFD that locks paging.
pub const LOCK: u8 = 0x20;
