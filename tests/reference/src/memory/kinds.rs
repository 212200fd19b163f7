//! The kinds of memory pages. Each writes at most one page; the rest is zero.

use super::{Rng, PAGE};
use crate::packing::ED;

pub type PageMaker = fn(&mut Rng, usize, &mut Vec<u8>);

const WORDS: &[&str] = &[
    "the", "of", "and", "you", "door", "north", "south", "lamp", "a", "is", "are", "in", "cave",
    "press", "any", "key", "to", "start", "score", "level", "game", "over", "dark", "room", "with",
];

/// Adds made pieces up to the end of the page.
fn until_full(memory: &mut Vec<u8>, mut piece: impl FnMut(&mut Vec<u8>)) {
    let end = memory.len() + PAGE;
    while memory.len() < end {
        piece(memory);
    }
    memory.truncate(end);
}

/// Z80 code: common opcodes, addresses, and the ED-prefixed instructions.
pub fn code(rng: &mut Rng, _: usize, memory: &mut Vec<u8>) {
    const COMMON: &[u8] = &[
        0x21, 0x11, 0x01, 0x3E, 0x06, 0x0E, 0x7E, 0x77, 0x23, 0x2B, 0xC9, 0x20, 0x28, 0x18, 0x10,
        0xC5, 0xD5, 0xE5, 0xC1, 0xD1, 0xE1, 0xAF, 0xB7, 0xFE, 0xE6, 0x19, 0xEB, 0x36, 0x32, 0x3A,
    ];
    const AFTER_ED: &[u8] = &[
        0xB0, 0x52, 0x5B, 0x53, 0x4B, 0x43, 0x78, 0x79, 0x56, 0xB8, 0x44,
    ];
    until_full(memory, |out| match rng.below(40) {
        0 => out.extend([ED, rng.pick(AFTER_ED)]),
        1..=5 => out.extend([0xCD, rng.byte(), 0x80 | rng.byte() & 0x1F]),
        6..=9 => out.extend([0xDD, 0x7E, rng.byte() & 0x0F]),
        10 if rng.once_in(8) => out.resize(out.len() + rng.below(24), 0),
        11..=14 => out.push(rng.byte()),
        _ => out.push(rng.pick(COMMON)),
    });
}

/// English-like text in lines of up to 32 characters, padded with spaces.
pub fn text(rng: &mut Rng, _: usize, memory: &mut Vec<u8>) {
    let mut column = 0;
    until_full(memory, |out| {
        let word = rng.pick(WORDS);
        if column + word.len() > 32 {
            out.resize(out.len() + 32 - column, b' ');
            column = 0;
        }
        out.extend(word.as_bytes());
        column += word.len();
        if column < 32 {
            out.push(if rng.once_in(9) { b'.' } else { b' ' });
            column += 1;
        }
    });
}

/// A Spectrum screen (6144 bytes of picture, 768 of attributes), then graphics.
pub fn screen(rng: &mut Rng, _: usize, memory: &mut Vec<u8>) {
    let start = memory.len();
    until_full(memory, |out| {
        let at = out.len() - start;
        if (6144..6912).contains(&at) {
            let paper = rng.pick(&[0x38, 0x07, 0x47, 0x78, 0x46]);
            out.resize(out.len() + 1 + rng.below(64), paper);
        } else if rng.once_in(3) {
            let fill = rng.pick(&[0x00, 0x00, 0x00, 0xFF, 0xAA, 0x55]);
            out.resize(out.len() + 1 + rng.below(32), fill);
        } else {
            let row = 1 + rng.below(6);
            out.extend(rng.bytes(row));
        }
    });
}

/// Empty pages with a few words of system variables in the first.
pub fn mostly_zero(rng: &mut Rng, number: usize, memory: &mut Vec<u8>) {
    if number == 0 {
        let variables = rng.bytes(200);
        memory.extend(variables);
    }
}

pub fn noise(rng: &mut Rng, _: usize, memory: &mut Vec<u8>) {
    memory.extend(rng.bytes(PAGE));
}

/// EDs, single and in runs, between short runs of other bytes.
pub fn ed_heavy(rng: &mut Rng, _: usize, memory: &mut Vec<u8>) {
    until_full(memory, |out| {
        let singles = rng.once_in(3);
        let run = if singles { 1 } else { 1 + rng.below(20) };
        out.resize(out.len() + run, ED);
        let byte = rng.pick(&[0x00, 0x41, 0xB0, 0xFF]);
        out.resize(out.len() + 1 + rng.below(12), byte);
    });
}

pub fn short_runs(rng: &mut Rng, _: usize, memory: &mut Vec<u8>) {
    until_full(memory, |out| {
        let byte = rng.byte();
        out.resize(out.len() + 2 + rng.below(5), byte);
    });
}

pub fn long_runs(rng: &mut Rng, _: usize, memory: &mut Vec<u8>) {
    until_full(memory, |out| {
        let byte = rng.byte();
        out.resize(out.len() + 100 + rng.below(1500), byte);
    });
}

/// Ramps of bytes and of words, sparse records and steps of eight.
pub fn tables(rng: &mut Rng, _: usize, memory: &mut Vec<u8>) {
    until_full(memory, |out| match rng.below(4) {
        0 => out.extend(0..=255),
        1 => {
            let high = rng.byte();
            out.extend((0..=127).flat_map(|low: u8| [low * 2, high]));
        }
        2 => {
            for _ in 0..16 {
                out.extend([rng.byte(), 0, 0, 0, 0, 0, 0, 0]);
            }
        }
        _ => out.extend((0..32).flat_map(|step: u8| [step * 8; 8])),
    });
}

/// A different kind in every page.
pub fn mixed(rng: &mut Rng, number: usize, memory: &mut Vec<u8>) {
    const KINDS: [PageMaker; 8] = [
        code,
        screen,
        text,
        long_runs,
        tables,
        noise,
        mostly_zero,
        short_runs,
    ];
    KINDS[number % KINDS.len()](rng, number, memory);
}
