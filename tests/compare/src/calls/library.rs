//! The library's side of a comparison: everything lent lies between guards.

use super::note;
use crate::ffi_snapshot::{self as ffi, LogBuffers};
use crate::lent::LentPart;
use reference::journal::{Buffers, Call, Correction, Replay};
use reference::machine;
use reference::memory::Rng;
use std::hint::black_box;

pub struct Library {
    pub fills: Rng,
    pub header: LentPart,
    pub area: LentPart,
    pub log: LentPart,
    /// Standing and total, each between two cells that must stay.
    cells: [u64; 5],
    guard: u64,
}

impl Library {
    pub fn new(seed: u64) -> Library {
        Library {
            fills: Rng::new(seed),
            header: LentPart::new(0, 0),
            area: LentPart::new(0, 0),
            log: LentPart::new(0, 0),
            cells: [0; 5],
            guard: 0,
        }
    }

    /// Lends all but the area.
    pub fn lend(&mut self, header: &[u8], log: &[u8], standing: u64, total: u64) {
        hold(&mut self.header, header, self.fills.word());
        hold(&mut self.log, log, self.fills.word());
        let guard = self.fills.word();
        (self.cells, self.guard) = ([guard, standing, guard, total, guard], guard);
    }

    pub fn lend_area(&mut self, area: &[u8]) {
        hold(&mut self.area, area, self.fills.word());
    }

    /// A dirty log of this length and two dirty numbers, started.
    pub fn start(&mut self, log_length: usize) -> u32 {
        self.log.renew(log_length, self.fills.word());
        let (guard, dirty) = (self.fills.word(), self.fills.word());
        (self.cells, self.guard) = ([guard, dirty, guard, !dirty, guard], guard);
        let [_, standing, _, total, _] = &mut self.cells;
        ffi::log_start(self.log.part_mut(), standing, total)
    }

    pub fn call(&mut self, call: Call) -> u32 {
        let [_, standing, _, total, _] = &mut self.cells;
        let lent = LogBuffers {
            header: self.header.part_mut(),
            area: self.area.part_mut(),
            log: self.log.part_mut(),
            standing,
            total,
        };
        match call {
            Call::Correct(Correction::Byte { address, value }) => {
                ffi::correct_byte(lent, address, value)
            }
            Call::Correct(Correction::Pair { pair, value }) => ffi::correct_pair(lent, pair, value),
            Call::Correct(Correction::Out { value }) => ffi::correct_out(lent, value),
            Call::Undo => ffi::undo(lent),
            Call::Redo => ffi::redo(lent),
        }
    }

    /// What is wrong with the two numbers, if anything.
    pub fn numbers(&self, standing: u64, total: u64) -> Option<String> {
        let guard = self.guard;
        let given = black_box(self.cells);
        if given == [guard, standing, guard, total, guard] {
            return None;
        }
        if [given[0], given[2], given[4]] != [guard; 3] {
            return Some("a cell beside standing or total was changed".into());
        }
        let (now, all) = (given[1], given[3]);
        Some(format!(
            "standing {now}, total {all}, should be {standing}, {total}"
        ))
    }

    /// What is wrong anywhere.
    pub fn differences(&self, expected: &Buffers) -> Vec<String> {
        let mut wrong = Vec::new();
        note(
            &mut wrong,
            "header",
            self.header.difference(&expected.header),
        );
        note(&mut wrong, "area", self.area.difference(&expected.area));
        note(&mut wrong, "log", self.log.difference(&expected.log));
        wrong.extend(self.numbers(expected.standing, expected.total));
        wrong
    }

    /// What is wrong with the header and both numbers by the model.
    pub fn against(&self, model: &Replay, wrong: &mut Vec<String>) {
        let header = machine::header(&model.now().machine);
        note(wrong, "header", self.header.difference(&header));
        wrong.extend(self.numbers(model.standing(), model.total()));
    }
}

fn hold(lent: &mut LentPart, bytes: &[u8], fill: u64) {
    lent.renew(bytes.len(), fill);
    lent.part_mut().copy_from_slice(bytes);
}
