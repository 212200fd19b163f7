//! The model (the paper bench): the start and the corrections as asked, those applied and those undone.
//! There is no log and no old value: a place holds what the last applied correction of it asked for, else
//! what it held at the start.

use super::contents::{asked, CorrectedPlace};
use super::{capacity, Call, Contents, Correction, LOCK};
use crate::machine::{Machine, Model, PAIRS};
use crate::refusal::{number, Refusal};
use std::collections::BTreeMap;

pub struct Replay {
    start: Contents,
    capacity: u64,
    applied: Vec<Correction>,
    /// The next to be redone is last.
    undone: Vec<Correction>,
    now: Contents,
    /// What the applied corrections of each place asked for, first to last.
    values: BTreeMap<CorrectedPlace, Vec<u16>>,
}

impl Replay {
    /// A valid machine and an area of 131,072 bytes with a newly started log of this length.
    pub fn new(machine: Machine, memory: Vec<u8>, log_length: usize) -> Replay {
        let start = Contents { machine, memory };
        Replay {
            now: start.clone(),
            start,
            capacity: capacity(log_length),
            applied: Vec::new(),
            undone: Vec::new(),
            values: BTreeMap::new(),
        }
    }

    pub fn now(&self) -> &Contents {
        &self.now
    }

    pub fn applied(&self) -> &[Correction] {
        &self.applied
    }

    /// The number of applied corrections.
    pub fn standing(&self) -> u64 {
        self.applied.len() as u64
    }

    /// The number of applied and undone corrections.
    pub fn total(&self) -> u64 {
        self.standing() + self.undone.len() as u64
    }

    /// Makes a call and gives its answer. Refused, nothing changes.
    pub fn call(&mut self, call: Call) -> u32 {
        number(&match call {
            Call::Correct(correction) => self.correct(correction),
            Call::Undo => self.undo(),
            Call::Redo => self.redo(),
        })
    }

    fn correct(&mut self, correction: Correction) -> Result<(), Refusal> {
        if let Some(refusal) = self.refusal(correction) {
            return Err(refusal);
        }
        self.apply(correction);
        self.undone.clear();
        Ok(())
    }

    fn refusal(&self, correction: Correction) -> Option<Refusal> {
        let machine = &self.now.machine;
        match correction {
            Correction::Pair { pair, .. } if pair >= PAIRS => Some(Refusal::Pair),
            Correction::Byte { address, .. } if address < 0x4000 => Some(Refusal::Address),
            Correction::Out { .. } if machine.model == Model::K48 => Some(Refusal::OutOn48K),
            Correction::Out { .. } if machine.paging & LOCK != 0 => Some(Refusal::Locked),
            _ if self.standing() == self.capacity => Some(Refusal::Full),
            _ => None,
        }
    }

    fn apply(&mut self, correction: Correction) {
        let values = self.values.entry(self.now.place(correction)).or_default();
        values.push(asked(correction));
        self.now.make(correction);
        self.applied.push(correction);
    }

    fn undo(&mut self) -> Result<(), Refusal> {
        let last = self.applied.pop().ok_or(Refusal::Nothing)?;
        // a byte changes no paging: what is paged in now is what those before it left
        let place = self.now.place(last);
        let values = self.values.entry(place).or_default();
        values.pop();
        let value = values.last().copied();
        self.now
            .put(place, value.unwrap_or(self.start.value(place)));
        self.undone.push(last);
        Ok(())
    }

    fn redo(&mut self) -> Result<(), Refusal> {
        let next = self.undone.pop().ok_or(Refusal::Nothing)?;
        self.apply(next);
        Ok(())
    }

    /// The start with the applied corrections made afresh, first to last.
    pub fn afresh(&self) -> Contents {
        let mut contents = self.start.clone();
        for correction in &self.applied {
            contents.make(*correction);
        }
        contents
    }

    /// Whether machine and memory are those of the corrections made afresh.
    pub fn is_afresh(&self) -> bool {
        self.afresh() == self.now
    }
}
