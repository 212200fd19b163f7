//! The parts of the benchmark of the journal: a full log, and the calls at one of its steps.

use crate::ffi_snapshot::{self as ffi, LogBuffers};
use bench::timing::Contender;
use reference::journal::{Step, STEP};
use reference::machine::{header, Machine, Model};
use reference::memory::{MEMORY, PAGE};
use std::hint::black_box;

/// The most steps of a log.
pub const STEPS: usize = 4_096;

/// The page and the offset of every byte that is corrected, and its two values.
const PAGE_AT: u8 = 3;
const OFFSET: u16 = 0x0123;
const VALUES: (u8, u8) = (0x11, 0x22);

/// The place of that byte in the area.
const PLACE: usize = PAGE_AT as usize * PAGE + OFFSET as usize;

/// The address at which it lies.
const ADDRESS: u16 = 0xC000 + OFFSET;

#[derive(Clone, Copy)]
pub enum TimedCall {
    Byte,
    Pair,
    Out,
    Undo,
    Redo,
}

pub const TIMED_CALLS: [(&str, TimedCall); 5] = [
    ("correct a byte", TimedCall::Byte),
    ("correct a pair", TimedCall::Pair),
    ("correct the OUT", TimedCall::Out),
    ("undo", TimedCall::Undo),
    ("redo", TimedCall::Redo),
];

/// A 128K machine and a log full of good steps.
pub struct FullLog {
    header: Vec<u8>,
    area: Vec<u8>,
    log: Vec<u8>,
    standing: u64,
    total: u64,
}

impl FullLog {
    pub fn new() -> FullLog {
        let machine = Machine {
            paging: PAGE_AT,
            ..Machine::blank_as(Model::K128)
        };
        let step = Step::byte(PAGE_AT, OFFSET, VALUES.0, VALUES.1);
        FullLog {
            header: header(&machine).to_vec(),
            area: vec![0; MEMORY],
            log: step.bytes().repeat(STEPS),
            standing: 0,
            total: 0,
        }
    }

    /// One call that writes, undoes or redoes step `number`, counted from 1. The numbers and the byte are set
    /// so that it is accepted each time.
    pub fn call(&mut self, kind: TimedCall, number: u64) -> u32 {
        let before = number - 1;
        (self.standing, self.total) = (before, before);
        match kind {
            TimedCall::Undo => {
                (self.standing, self.total) = (number, number);
                self.area[PLACE] = VALUES.1;
            }
            TimedCall::Redo => {
                self.total = number;
                self.area[PLACE] = VALUES.0;
            }
            _ => {}
        }
        let lent = LogBuffers {
            header: black_box(&mut self.header),
            area: black_box(&mut self.area),
            log: black_box(&mut self.log),
            standing: &mut self.standing,
            total: &mut self.total,
        };
        match kind {
            TimedCall::Byte => ffi::correct_byte(lent, ADDRESS, VALUES.1),
            TimedCall::Pair => ffi::correct_pair(lent, 3, 0x1234),
            TimedCall::Out => ffi::correct_out(lent, PAGE_AT),
            TimedCall::Undo => ffi::undo(lent),
            TimedCall::Redo => ffi::redo(lent),
        }
    }

    /// The call is accepted at this step, writes its step there alone and leaves the numbers it should.
    pub fn check(kind: TimedCall, number: u64) {
        let mut full_log = FullLog::new();
        let log = full_log.log.clone();
        assert_eq!(full_log.call(kind, number), 0);
        let at = (number as usize - 1) * STEP;
        let (is, was) = (&full_log.log, &log);
        assert!(is[..at] == was[..at] && is[at + STEP..] == was[at + STEP..]);
        let standing = match kind {
            TimedCall::Undo => number - 1,
            _ => number,
        };
        assert_eq!((full_log.standing, full_log.total), (standing, number));
    }
}

/// The calls that are timed together.
pub const CALLS: usize = 1_000;

/// The call at one step, again and again.
pub fn contender(kind: TimedCall, number: u64) -> Contender<'static> {
    let mut full_log = FullLog::new();
    Box::new(move || {
        for _ in 0..CALLS {
            black_box(full_log.call(kind, black_box(number)));
        }
    })
}

/// Fills as many bytes as an area has.
pub fn fill() -> Contender<'static> {
    let (mut area, mut value) = (vec![0u8; MEMORY], 0);
    Box::new(move || {
        value ^= 1;
        black_box(&mut area).fill(value);
    })
}
