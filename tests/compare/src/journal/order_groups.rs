//! Groups with several faults at once, where the first number of the order is given, and invented numbers.

use super::forge::{self, MODELS, MOVES};
use compare::calls::journal::JournalChecker;
use compare::choice::Choice;
use compare::machines::{damage_sound, header};
use compare::report::{Group, Outcome};
use reference::journal::{capacity, Call, Correction, Step, LOCK};
use reference::machine::{Model, HEADER};
use reference::memory::{Rng, MEMORY};

/// Every choice of faults of a correction, on both models.
pub fn corrections(group: &mut Group, check: &mut JournalChecker, rng: &mut Rng) -> Outcome {
    for (model, own) in [
        (Model::K48, 23),
        (Model::K48, 32),
        (Model::K48, 24),
        (Model::K128, 23),
        (Model::K128, 32),
        (Model::K128, 25),
    ] {
        for case in 0..32 * 12 {
            let order = &[20, 21, 29, own, 26];
            // an OUT on 48K has its fault always
            let bits = (case % 32) | (usize::from(own == 24) << 3);
            let choice = Choice { order, bits };
            forge::area(check, rng);
            forge::lend(check, rng, model, 110);
            if own == 25 {
                check.lent.header[35] &= !LOCK;
                check.lent.header[35] |= if choice.has(25) { LOCK } else { 0 };
            }
            let asked = correction(rng, own, choice.has(own));
            numbers(check, rng, choice.has(29), choice.has(26));
            common(check, rng, choice.has(20), choice.has(21));
            check.expect(group, asked, choice.first())?;
        }
    }
    Ok(())
}

/// The correction whose own fault is this number.
fn correction(rng: &mut Rng, own: u32, is_faulty: bool) -> Call {
    let (value, word) = (rng.byte(), rng.word() as u16);
    Call::Correct(match own {
        23 => {
            let address = match is_faulty {
                true => rng.pick(&[0, 1, 0x1234, 0x3FFF]),
                false => rng.pick(&[0x4000, 0x8000, 0xC000, 0xFFFF]),
            };
            Correction::Byte { address, value }
        }
        32 => {
            let pair = match is_faulty {
                true => rng.pick(&[12, 13, 32, 255]),
                false => rng.pick(&[0, 1, 4, 11]),
            };
            Correction::Pair { pair, value: word }
        }
        _ => Correction::Out { value },
    })
}

/// Numbers that are out of order, that fill the log, both at once as far as that goes, or neither.
fn numbers(check: &mut JournalChecker, rng: &mut Rng, out_of_order: bool, full: bool) {
    let room = capacity(check.lent.log.len());
    let lent = &mut check.lent;
    (lent.standing, lent.total) = match (out_of_order, full) {
        (true, true) => rng.pick(&[(room, room - 1), (room, room + 1), (room, 0)]),
        (true, false) => rng.pick(&[(1, 0), (0, room + 1), (3, 2), (2, u64::MAX)]),
        (false, true) => (room, room),
        (false, false) => rng.pick(&[(0, 0), (0, room), (room - 1, room), (2, 3)]),
    };
}

/// A header that no writer makes, an area of another length.
fn common(check: &mut JournalChecker, rng: &mut Rng, bad_header: bool, bad_area: bool) {
    if bad_header {
        let header = &mut check.lent.header;
        match rng.below(5) {
            0 => header[60] = 1,
            1 => header[12] |= 0x40,
            2 => damage_sound(rng, header),
            3 => header.truncate(rng.below(HEADER)),
            _ => header.push(0),
        }
    }
    if bad_area {
        let length = rng.pick(&[0, 1, 81_920, MEMORY - 1, MEMORY + 1]);
        check.lend_area(rng.bytes(length));
    }
}

/// Every choice of faults of an undo and of a redo.
pub fn moves(group: &mut Group, check: &mut JournalChecker, rng: &mut Rng) -> Outcome {
    for case in 0..32 * 60 {
        let choice = Choice {
            order: &[20, 21, 29, 27, 28],
            bits: case % 32,
        };
        let (model, asked) = (MODELS[case / 32 % 2], MOVES[case / 64 % 2]);
        forge::area(check, rng);
        let mut step = forge::good(check, rng, model, 1, asked);
        if choice.has(28) {
            step.last = 1;
            forge::write(check, asked, &step);
        }
        if choice.has(27) {
            match asked {
                Call::Undo => check.lent.standing = 0,
                _ => check.lent.total = check.lent.standing,
            }
        }
        if choice.has(29) {
            out_of_order(check, rng, asked, choice.has(27));
        }
        common(check, rng, choice.has(20), choice.has(21));
        check.expect(group, asked, choice.first())?;
    }
    Ok(())
}

/// Numbers out of order, with nothing to undo or to redo if that is asked for.
fn out_of_order(check: &mut JournalChecker, rng: &mut Rng, asked: Call, nothing: bool) {
    let lent = &mut check.lent;
    let room = capacity(lent.log.len());
    match (asked, nothing) {
        (Call::Undo, false) if rng.once_in(2) => lent.total = lent.standing - 1,
        (Call::Redo, true) => (lent.standing, lent.total) = (room + 1, room + 1),
        _ => lent.total = room + 1 + rng.below(3) as u64,
    }
}

/// Numbers around every bound with logs of many lengths, all calls.
pub fn invented_numbers(group: &mut Group, check: &mut JournalChecker, rng: &mut Rng) -> Outcome {
    forge::area(check, rng);
    let lengths = [
        0, 10, 11, 12, 21, 22, 110, 45_045, 45_055, 45_056, 45_057, 45_067, 60_000,
    ];
    for length in lengths {
        let all = around(capacity(length));
        for standing in &all {
            for total in &all {
                let numbers = (*standing, *total);
                calls_with(group, check, rng, length, numbers)?;
            }
        }
    }
    Ok(())
}

/// Numbers around a capacity and around the most steps, and wide ones that end in the same bits.
fn around(room: u64) -> Vec<u64> {
    let mut all = vec![0, 1, 2, room.saturating_sub(1), room, room + 1];
    all.extend([4_095, 4_096, 4_097, u64::MAX - 1, u64::MAX]);
    for wide in [1 << 32, 1 << 63] {
        all.extend([wide, wide + 1, wide + room]);
    }
    all.sort_unstable();
    all.dedup();
    all
}

/// Every call on a log of good steps with these numbers.
fn calls_with(
    group: &mut Group,
    check: &mut JournalChecker,
    rng: &mut Rng,
    length: usize,
    (standing, total): (u64, u64),
) -> Outcome {
    let model = rng.pick(&MODELS);
    check.lent.header = header(rng, model);
    let mut step = Step::pair(3, 0, 0);
    step.old = check.lent.present(&step);
    step.new = step.old;
    let mut log = step.bytes().repeat(length / 11 + 1);
    log.truncate(length);
    let in_order = standing <= total && total <= capacity(length);
    let mut calls = forge::corrections(rng, model);
    calls.extend(MOVES);
    for asked in calls {
        check.lent.log.clone_from(&log);
        (check.lent.standing, check.lent.total) = (standing, total);
        let header = check.lent.header.clone();
        let answer = check.call(group, asked)?;
        if (answer == 29) == in_order {
            return Err(format!("the reference answers {answer} to {asked:?}"));
        }
        check.lent.header = header;
    }
    Ok(())
}

/// Headers and areas of other lengths in every combination, all calls.
pub fn buffers(group: &mut Group, check: &mut JournalChecker, rng: &mut Rng) -> Outcome {
    for model in MODELS {
        for area in [0, 1, 16_384, MEMORY - 1, MEMORY, MEMORY + 1, 2 * MEMORY] {
            check.lend_area(rng.bytes(area));
            for length in [0, 1, 30, 85, 86, 87, 172] {
                let mut calls = forge::corrections(rng, model);
                calls.extend(MOVES);
                for asked in calls {
                    forge::lend(check, rng, model, 110);
                    check.lent.header.resize(length, 0);
                    let answer = check.call(group, asked)?;
                    let number = match (length, area) {
                        (HEADER, MEMORY) => continue,
                        (HEADER, _) => 21,
                        _ => 20,
                    };
                    if answer != number {
                        return Err(format!("the reference answers {answer}, not {number}"));
                    }
                }
            }
        }
    }
    Ok(())
}
