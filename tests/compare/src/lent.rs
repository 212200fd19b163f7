//! A part lent for a call: dirty before it, inside guard bytes that must stay.

use std::hint::black_box;

const GUARD: usize = 32;

pub struct LentPart {
    buffer: Vec<u8>,
    length: usize,
    /// What every place holds before a call, from the first on.
    dirty: [u8; PERIOD + GUARD],
}

/// The dirty byte at a place: never 0, so that a missing zero is seen.
fn dirty(fill: u64, at: usize) -> u8 {
    let mixed = fill.rotate_left(at as u32 % 64) as u8;
    mixed.wrapping_add(at as u8) | 1 << (fill % 8)
}

/// The dirty bytes come again after this many.
const PERIOD: usize = 256;

impl LentPart {
    /// A part of `length` bytes, dirty in a way given by `fill`.
    pub fn new(length: usize, fill: u64) -> LentPart {
        let mut lent = LentPart {
            buffer: Vec::new(),
            length,
            dirty: [0; PERIOD + GUARD],
        };
        lent.renew(length, fill);
        lent
    }

    /// The same room as a new part of `length` bytes.
    pub fn renew(&mut self, length: usize, fill: u64) {
        self.length = length;
        self.dirty = std::array::from_fn(|at| dirty(fill, at));
        self.buffer.resize(length + 2 * GUARD, 0);
        for part in self.buffer.chunks_mut(PERIOD) {
            part.copy_from_slice(&self.dirty[..part.len()]);
        }
    }

    /// A part that holds `bytes`, to be read only.
    pub fn holding(bytes: &[u8], fill: u64) -> LentPart {
        let mut lent = LentPart::new(bytes.len(), fill);
        lent.part_mut().copy_from_slice(bytes);
        lent
    }

    pub fn part(&self) -> &[u8] {
        &self.buffer[GUARD..GUARD + self.length]
    }

    pub fn part_mut(&mut self) -> &mut [u8] {
        &mut self.buffer[GUARD..GUARD + self.length]
    }

    /// What is wrong with the guards, if anything, after a call.
    pub fn guards(&self) -> Option<String> {
        let buffer = black_box(&self.buffer);
        for from in [0, GUARD + self.length] {
            let is = &buffer[from..from + GUARD];
            let should = &self.dirty[from % PERIOD..][..GUARD];
            if is != should {
                let at = is.iter().zip(should).take_while(|(a, b)| a == b).count();
                let place = (from + at) as isize - GUARD as isize;
                return Some(format!("guard byte at {place} is now {:02X}", is[at]));
            }
        }
        None
    }

    /// What is wrong with the part or its guards, if anything, after a call.
    pub fn difference(&self, expected: &[u8]) -> Option<String> {
        if let Some(guards) = self.guards() {
            return Some(guards);
        }
        let part = self.part();
        if part == expected {
            return None;
        }
        let at = part.iter().zip(expected).position(|(a, b)| a != b);
        let Some(at) = at else {
            return Some(format!("length {} not {}", part.len(), expected.len()));
        };
        let (is, should) = (part[at], expected[at]);
        Some(format!("byte {at} is {is:02X}, should be {should:02X}"))
    }
}
