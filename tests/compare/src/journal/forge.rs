//! Invented logs: a good step where the next undo or redo looks, anything elsewhere.

use compare::calls::journal::JournalChecker;
use compare::machines::header;
use reference::journal::{capacity, Call, Correction, Step, LOCK, STEP};
use reference::machine::{owns, Model, PAIRS};
use reference::memory::{Rng, MEMORY, PAGE};

pub const MODELS: [Model; 2] = [Model::K48, Model::K128];

/// The two calls that look at a step.
pub const MOVES: [Call; 2] = [Call::Undo, Call::Redo];

/// A good step of this tag; its old and new values differ half the time.
pub fn step(rng: &mut Rng, model: Model, tag: u8) -> Step {
    let (old, other) = (rng.byte(), rng.byte());
    let new = if rng.once_in(2) { other } else { old };
    match tag {
        1 => {
            let page = loop {
                let page = rng.below(8) as u8;
                if owns(model, page) {
                    break page;
                }
            };
            let any = rng.below(PAGE) as u16;
            let offset = rng.pick(&[0, 0x10, 0x3FFF, any]);
            Step::byte(page, offset, old, new)
        }
        2 => {
            let (old, new) = (rng.word() as u16, rng.word() as u16);
            Step::pair(rng.below(PAIRS.into()) as u8, old, new)
        }
        _ => Step::out(old, new),
    }
}

/// The tags that a model's good steps have.
pub fn tags(model: Model) -> &'static [u8] {
    match model {
        Model::K48 => &[1, 2],
        Model::K128 => &[1, 2, 3],
    }
}

/// A random machine, a dirty log of this length and numbers that both moves may follow.
pub fn lend(check: &mut JournalChecker, rng: &mut Rng, model: Model, log_length: usize) {
    check.lent.header = header(rng, model);
    if model == Model::K128 && rng.once_in(2) {
        check.lent.header[35] |= LOCK;
    }
    check.lent.log = rng.bytes(log_length);
    let room = capacity(log_length);
    check.lent.total = 1 + rng.below(room as usize) as u64;
    check.lent.standing = rng.below(check.lent.total as usize + 1) as u64;
}

/// Numbers with which the move finds a step.
pub fn ready(check: &mut JournalChecker, rng: &mut Rng, asked: Call) {
    let total = check.lent.total as usize;
    let before = rng.below(total) as u64;
    check.lent.standing = match asked {
        Call::Undo => before + 1,
        _ => before,
    };
}

/// The place in the log of the step that a move looks at.
pub fn place(check: &JournalChecker, asked: Call) -> usize {
    let number = match asked {
        Call::Undo => check.lent.standing.wrapping_sub(1),
        _ => check.lent.standing,
    };
    (number as usize).wrapping_mul(STEP)
}

/// Writes a step where the move looks.
pub fn write(check: &mut JournalChecker, asked: Call, step: &Step) {
    let at = place(check, asked);
    check.lent.log[at..at + STEP].copy_from_slice(&step.bytes());
}

/// The value that must be present for the move.
pub fn needed(asked: Call, step: &Step) -> u16 {
    match asked {
        Call::Undo => step.new,
        _ => step.old,
    }
}

/// Makes present what a damaged step needs, where it names a byte of the area or a pair at all.
pub fn fit(check: &mut JournalChecker, asked: Call, step: &Step) {
    let place = usize::from(step.index) * PAGE + usize::from(step.offset);
    let is_place = match step.tag {
        1 => place < MEMORY,
        2 => step.index < PAIRS,
        _ => false,
    };
    if is_place {
        check.put(step, needed(asked, step));
    }
}

/// A machine, a log and numbers with a good step for the move, and the step.
pub fn good(check: &mut JournalChecker, rng: &mut Rng, model: Model, tag: u8, asked: Call) -> Step {
    let length = rng.pick(&[11, 22, 40, 110]);
    lend(check, rng, model, length);
    ready(check, rng, asked);
    let step = step(rng, model, tag);
    write(check, asked, &step);
    check.put(&step, needed(asked, &step));
    step
}

/// A random area for a group.
pub fn area(check: &mut JournalChecker, rng: &mut Rng) {
    check.lend_area(rng.bytes(MEMORY));
}

/// A correction of each kind that the model takes while paging is not locked.
pub fn corrections(rng: &mut Rng, model: Model) -> Vec<Call> {
    let address = rng.pick(&[0x4000, 0x7FFF, 0x8000, 0xBFFF, 0xC000, 0xFFFF]);
    let (value, word) = (rng.byte(), rng.word() as u16);
    let pair = rng.below(PAIRS.into()) as u8;
    let mut all = vec![
        Call::Correct(Correction::Byte { address, value }),
        Call::Correct(Correction::Pair { pair, value: word }),
    ];
    if model == Model::K128 {
        all.push(Call::Correct(Correction::Out { value }));
    }
    all
}
