//! Groups of steps with every value in one field, the rest good.

use super::forge::{self, MODELS, MOVES};
use compare::calls::journal::JournalChecker;
use compare::report::{Group, Outcome};
use reference::journal::{Call, Step};
use reference::machine::Model;
use reference::memory::Rng;

/// Sets one field to a value.
type Field = fn(&mut Step, u16);

/// A good step of each tag, on both models, with both moves, and every value of a field.
fn every_value(
    group: &mut Group,
    check: &mut JournalChecker,
    rng: &mut Rng,
    values: &[u16],
    set: Field,
) -> Outcome {
    forge::area(check, rng);
    for model in MODELS {
        for tag in forge::tags(model) {
            for asked in MOVES {
                let kind = (model, *tag, asked);
                one_kind(group, check, rng, kind, values, set)?;
            }
        }
    }
    Ok(())
}

fn one_kind(
    group: &mut Group,
    check: &mut JournalChecker,
    rng: &mut Rng,
    (model, tag, asked): (Model, u8, Call),
    values: &[u16],
    set: Field,
) -> Outcome {
    for value in values {
        let good = forge::good(check, rng, model, tag, asked);
        let mut step = good;
        set(&mut step, *value);
        forge::write(check, asked, &step);
        forge::fit(check, asked, &step);
        check.call(group, asked)?;
    }
    Ok(())
}

fn bytes() -> Vec<u16> {
    (0..=255).collect()
}

pub fn tags(group: &mut Group, check: &mut JournalChecker, rng: &mut Rng) -> Outcome {
    every_value(group, check, rng, &bytes(), |step, value| {
        step.tag = value as u8;
    })
}

pub fn lengths(group: &mut Group, check: &mut JournalChecker, rng: &mut Rng) -> Outcome {
    let all: Vec<u16> = (0..=65_535).collect();
    every_value(group, check, rng, &all, |step, value| step.length = value)
}

pub fn indexes(group: &mut Group, check: &mut JournalChecker, rng: &mut Rng) -> Outcome {
    every_value(group, check, rng, &bytes(), |step, value| {
        step.index = value as u8;
    })
}

/// Every offset in a page and around its end, every other bit by itself.
pub fn offsets(group: &mut Group, check: &mut JournalChecker, rng: &mut Rng) -> Outcome {
    let mut all: Vec<u16> = (0..0x4100).collect();
    all.extend((0..=65_535).step_by(97));
    all.push(65_535);
    every_value(group, check, rng, &all, |step, value| step.offset = value)
}

/// Every old and new value up to 1,023, and others.
pub fn values(group: &mut Group, check: &mut JournalChecker, rng: &mut Rng) -> Outcome {
    let mut all: Vec<u16> = (0..1_024).collect();
    all.extend((0..=65_535).step_by(251));
    every_value(group, check, rng, &all, |step, value| step.old = value)?;
    every_value(group, check, rng, &all, |step, value| step.new = value)
}

pub fn last_bytes(group: &mut Group, check: &mut JournalChecker, rng: &mut Rng) -> Outcome {
    every_value(group, check, rng, &bytes(), |step, value| {
        step.last = value as u8;
    })
}
