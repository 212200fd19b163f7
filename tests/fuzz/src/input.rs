//! The bytes of an input, taken one after the other, and what the first two of them pick.

use reference::machine::HEADER;
use reference::memory::{MEMORY, PAGE};

#[derive(Debug, Clone, Copy, PartialEq, Eq)]
pub enum InputMode {
    Read,
    Write,
    Log,
}

pub const MODES: [InputMode; 3] = [InputMode::Read, InputMode::Write, InputMode::Log];

pub struct Input<'a> {
    rest: &'a [u8],
}

impl<'a> Input<'a> {
    pub fn new(bytes: &'a [u8]) -> Input<'a> {
        Input { rest: bytes }
    }

    /// The next bytes, fewer at the end.
    pub fn take(&mut self, count: usize) -> &'a [u8] {
        let (taken, rest) = self.rest.split_at(count.min(self.rest.len()));
        self.rest = rest;
        taken
    }

    /// All that is left.
    pub fn rest(&mut self) -> &'a [u8] {
        self.take(usize::MAX)
    }

    pub fn is_empty(&self) -> bool {
        self.rest.is_empty()
    }

    /// The next byte, 0 past the end.
    pub fn byte(&mut self) -> u8 {
        self.take(1).first().copied().unwrap_or(0)
    }

    pub fn word(&mut self) -> usize {
        u16::from_le_bytes([self.byte(), self.byte()]).into()
    }

    pub fn mode(&mut self) -> InputMode {
        MODES[usize::from(self.byte()) % MODES.len()]
    }

    /// The next bytes as a header of this length, zeros past the end.
    pub fn header(&mut self, length: usize) -> Vec<u8> {
        let mut header = self.take(HEADER).to_vec();
        header.resize(length, 0);
        header
    }
}

const AREAS: [usize; 8] = [
    MEMORY,
    MEMORY,
    MEMORY,
    MEMORY,
    MEMORY - 1,
    MEMORY + 1,
    0,
    PAGE,
];

const HEADERS: [usize; 8] = [
    HEADER,
    HEADER,
    HEADER,
    HEADER,
    HEADER - 1,
    HEADER + 1,
    0,
    2 * HEADER,
];

/// What byte 1 picks: the lengths of the area and the header, each half the time the right one, and a choice of four.
pub struct Picked {
    pub area: usize,
    pub header: usize,
    pub choice: u8,
    byte: u8,
}

impl Picked {
    pub fn of(byte: u8) -> Picked {
        Picked {
            area: AREAS[usize::from(byte % 8)],
            header: HEADERS[usize::from(byte / 8 % 8)],
            choice: byte / 64,
            byte,
        }
    }

    /// The length of an output for a file of this length.
    pub fn room(&self, file: usize) -> usize {
        [0, file - 1, file, file + 1][usize::from(self.choice)]
    }

    /// Which case of a number this is: the length that is at fault, or `other`.
    pub fn case(&self, number: u32, other: u8) -> u8 {
        match number {
            1 | 21 => self.byte % 8,
            20 => self.byte / 8 % 8,
            _ => other,
        }
    }
}
