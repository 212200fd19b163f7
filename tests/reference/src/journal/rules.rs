//! The calls over byte buffers, as the library exports them: any header, area, log and numbers. The machine
//! crosses as its v3 header, and a correction changes header bytes.

use super::{capacity, Call, Correction, Step, LOCK, STEP};
use crate::machine::{own_header, owns, page_at, Model, PAIRS};
use crate::memory::{MEMORY, PAGE};
use crate::refusal::{number, Refusal, ACCEPTED};

/// All that is lent to a call.
#[derive(Debug, Clone, PartialEq, Eq)]
pub struct Buffers {
    pub header: Vec<u8>,
    pub area: Vec<u8>,
    pub log: Vec<u8>,
    pub standing: u64,
    pub total: u64,
}

/// The header bytes of the low and the high half of each register pair.
const PAIR_BYTES: [(usize, usize); PAIRS as usize] = [
    (1, 0),
    (2, 3),
    (13, 14),
    (4, 5),
    (22, 21),
    (15, 16),
    (17, 18),
    (19, 20),
    (25, 26),
    (23, 24),
    (8, 9),
    (32, 33),
];

/// The header byte of the last OUT to 7FFD.
const LAST_OUT: usize = 35;

/// Starts a log, which is never refused.
pub fn start(log: &mut [u8], standing: &mut u64, total: &mut u64) -> u32 {
    log.fill(0);
    (*standing, *total) = (0, 0);
    ACCEPTED
}

/// Makes a call and gives its answer. Refused, nothing changes.
pub fn call(buffers: &mut Buffers, call: Call) -> u32 {
    number(&match call {
        Call::Correct(correction) => buffers.correct(correction),
        Call::Undo => buffers.undo(),
        Call::Redo => buffers.redo(),
    })
}

impl Buffers {
    /// What every call looks at first: 20, 21, 29.
    fn model(&self) -> Result<Model, Refusal> {
        let machine = own_header(&self.header).ok_or(Refusal::Machine)?;
        if self.area.len() != MEMORY {
            return Err(Refusal::Area);
        }
        let in_order = self.standing <= self.total && self.total <= capacity(self.log.len());
        in_order.then_some(machine.model).ok_or(Refusal::Numbers)
    }

    fn correct(&mut self, correction: Correction) -> Result<(), Refusal> {
        let model = self.model()?;
        let step = self.step_for(model, correction)?;
        if self.standing == capacity(self.log.len()) {
            return Err(Refusal::Full);
        }
        let at = self.standing as usize * STEP;
        self.log[at..at + STEP].copy_from_slice(&step.bytes());
        self.put(&step, step.new);
        self.standing += 1;
        self.total = self.standing;
        Ok(())
    }

    /// The step of a correction, its old value the present one.
    fn step_for(&self, model: Model, correction: Correction) -> Result<Step, Refusal> {
        let last_out = self.header[LAST_OUT];
        let mut step = match correction {
            Correction::Pair { pair, .. } if pair >= PAIRS => return Err(Refusal::Pair),
            Correction::Pair { pair, value } => Step::pair(pair, 0, value),
            Correction::Byte { address, value } => {
                let page = page_at(model, last_out, address).ok_or(Refusal::Address)?;
                Step::byte(page, address % PAGE as u16, 0, value)
            }
            Correction::Out { .. } if model == Model::K48 => return Err(Refusal::OutOn48K),
            Correction::Out { .. } if last_out & LOCK != 0 => return Err(Refusal::Locked),
            Correction::Out { value } => Step::out(0, value),
        };
        step.old = self.present(&step);
        Ok(step)
    }

    fn undo(&mut self) -> Result<(), Refusal> {
        let model = self.model()?;
        let number = self.standing.checked_sub(1).ok_or(Refusal::Nothing)?;
        let step = self.step(number);
        if is_damaged(model, &step) || self.present(&step) != step.new {
            return Err(Refusal::Damaged);
        }
        self.put(&step, step.old);
        self.standing = number;
        Ok(())
    }

    fn redo(&mut self) -> Result<(), Refusal> {
        let model = self.model()?;
        if self.standing == self.total {
            return Err(Refusal::Nothing);
        }
        let step = self.step(self.standing);
        if is_damaged(model, &step) || self.present(&step) != step.old {
            return Err(Refusal::Damaged);
        }
        self.put(&step, step.new);
        self.standing += 1;
        Ok(())
    }

    fn step(&self, number: u64) -> Step {
        Step::from_bytes(&self.log[number as usize * STEP..])
    }

    /// The value now at the place of a step that is not damaged.
    pub fn present(&self, step: &Step) -> u16 {
        match step.tag {
            1 => self.area[place(step)].into(),
            2 => {
                let (low, high) = PAIR_BYTES[usize::from(step.index)];
                u16::from_le_bytes([self.header[low], self.header[high]])
            }
            _ => self.header[LAST_OUT].into(),
        }
    }

    /// Gives the place of a step that is not damaged a value.
    pub fn put(&mut self, step: &Step, value: u16) {
        match step.tag {
            1 => self.area[place(step)] = value as u8,
            2 => {
                let (low, high) = PAIR_BYTES[usize::from(step.index)];
                [self.header[low], self.header[high]] = value.to_le_bytes();
            }
            _ => self.header[LAST_OUT] = value as u8,
        }
    }
}

fn place(step: &Step) -> usize {
    usize::from(step.index) * PAGE + usize::from(step.offset)
}

/// What is 28 whatever the present value.
fn is_damaged(model: Model, step: &Step) -> bool {
    let is_wide = step.old > 255 || step.new > 255;
    let is_wrong = match step.tag {
        1 => !owns(model, step.index) || step.offset > 16_383 || is_wide,
        2 => step.index > 11 || step.offset != 0,
        3 => model == Model::K48 || step.index != 0 || step.offset != 0 || is_wide,
        _ => true,
    };
    is_wrong || step.length != 8 || step.last != 0
}
