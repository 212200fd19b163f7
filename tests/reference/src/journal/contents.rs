//! A machine with its memory, and what one correction does to them.

use super::Correction;
use crate::machine::{page_at, Machine};
use crate::memory::PAGE;

#[derive(Debug, Clone, PartialEq, Eq)]
pub struct Contents {
    pub machine: Machine,
    pub memory: Vec<u8>,
}

/// What a correction gives a value to.
#[derive(Debug, Clone, Copy, PartialEq, Eq, PartialOrd, Ord)]
pub enum CorrectedPlace {
    /// A byte of the memory, counted over all pages.
    Byte(usize),
    Pair(u8),
    LastOut,
}

impl Contents {
    /// Where a good correction goes, with the paging of this moment.
    pub fn place(&self, correction: Correction) -> CorrectedPlace {
        match correction {
            Correction::Byte { address, .. } => {
                let page = page_at(self.machine.model, self.machine.paging, address);
                let page = usize::from(page.expect("an address of RAM"));
                CorrectedPlace::Byte(page * PAGE + usize::from(address) % PAGE)
            }
            Correction::Pair { pair, .. } => CorrectedPlace::Pair(pair),
            Correction::Out { .. } => CorrectedPlace::LastOut,
        }
    }

    pub fn value(&self, place: CorrectedPlace) -> u16 {
        match place {
            CorrectedPlace::Byte(at) => self.memory[at].into(),
            CorrectedPlace::Pair(pair) => self.machine.pair(pair),
            CorrectedPlace::LastOut => self.machine.paging.into(),
        }
    }

    pub fn put(&mut self, place: CorrectedPlace, value: u16) {
        match place {
            CorrectedPlace::Byte(at) => self.memory[at] = value as u8,
            CorrectedPlace::Pair(pair) => self.machine.put_pair(pair, value),
            CorrectedPlace::LastOut => self.machine.paging = value as u8,
        }
    }

    pub fn make(&mut self, correction: Correction) {
        self.put(self.place(correction), asked(correction));
    }
}

/// The value that a correction asks for.
pub fn asked(correction: Correction) -> u16 {
    match correction {
        Correction::Byte { value, .. } | Correction::Out { value } => value.into(),
        Correction::Pair { value, .. } => value,
    }
}
