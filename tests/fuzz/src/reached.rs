//! Which calls gave which numbers in which cases, for libFuzzer, which takes each cell for a branch of the program.

use compare::calls::seen::{CountedFunction, NUMBERS};
use std::sync::atomic::{AtomicU8, Ordering};

/// The rows of cells: reading and writing of each format with the offsets told and the sound read, the functions of the
/// log, and the blocks and the figures that explaining tells.
pub const Z80_ROWS: FormatRows = FormatRows {
    read: 0,
    write: 1,
    offset: 11,
    sound: 15,
};
pub const SCS_ROWS: FormatRows = FormatRows {
    read: 9,
    write: 10,
    offset: 12,
    sound: 16,
};
pub const BLOCK_ROW: usize = 13;
pub const FOUND_ROW: usize = 14;
const ROWS: usize = 17;

pub struct FormatRows {
    pub read: usize,
    pub write: usize,
    pub offset: usize,
    pub sound: usize,
}

pub fn row(function: CountedFunction) -> usize {
    2 + function as usize
}

/// How many cases of one number are told apart.
const CASES: usize = 8;

const CELLS: usize = ROWS * NUMBERS * CASES;

#[allow(unsafe_code)]
#[used]
#[link_section = "__libfuzzer_extra_counters"]
static REACHED: [AtomicU8; CELLS] = [const { AtomicU8::new(0) }; CELLS];

/// Marks a number that a call gave, and which case of it this was.
pub fn mark(row: usize, number: u32, case: u8) {
    let cell = (row * NUMBERS + number as usize) * CASES + usize::from(case) % CASES;
    REACHED[cell].store(1, Ordering::Relaxed);
}
