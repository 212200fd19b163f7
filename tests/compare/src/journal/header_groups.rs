//! Groups with headers that our writer makes or does not make.

use super::forge::{self, MODELS, MOVES};
use compare::calls::journal::JournalChecker;
use compare::machines::header;
use compare::report::{Group, Outcome};
use compare::sounds::each_header;
use reference::journal::Call;
use reference::machine::HEADER;
use reference::memory::Rng;

/// Every call that may be accepted on some machine.
fn calls(rng: &mut Rng) -> Vec<Call> {
    let mut calls = forge::corrections(rng, reference::machine::Model::K128);
    calls.extend(MOVES);
    calls
}

/// Every value of every header byte, all calls.
pub fn every_byte(group: &mut Group, check: &mut JournalChecker, rng: &mut Rng) -> Outcome {
    forge::area(check, rng);
    for model in MODELS {
        for at in 0..HEADER {
            for value in 0..=255 {
                for asked in calls(rng) {
                    forge::good(check, rng, model, 1, asked);
                    check.lent.header[at] = value;
                    check.call(group, asked)?;
                }
            }
        }
    }
    Ok(())
}

/// Headers of every value of byte 37, all calls: 20, or another answer.
pub fn sound(group: &mut Group, check: &mut JournalChecker, rng: &mut Rng) -> Outcome {
    forge::area(check, rng);
    let mut calls_rng = Rng::new(rng.word());
    each_header(rng, |header| {
        let rng = &mut calls_rng;
        for asked in calls(rng) {
            forge::good(
                check,
                rng,
                MODELS[usize::from(header.bytes[34] > 3)],
                1,
                asked,
            );
            check.lent.header = header.bytes.to_vec();
            let answer = check.call(group, asked)?;
            if (answer == 20) == header.is_ours {
                return Err(format!("the reference answers {answer} to {asked:?}"));
            }
        }
        Ok(())
    })
}

/// Headers with some bytes changed, and random bytes.
pub fn changed(group: &mut Group, check: &mut JournalChecker, rng: &mut Rng) -> Outcome {
    forge::area(check, rng);
    for case in 0..8_000 {
        for asked in calls(rng) {
            forge::good(check, rng, MODELS[case % 2], 2, asked);
            let mut bytes = header(rng, MODELS[case % 2]);
            for _ in 0..rng.below(4) {
                bytes[rng.below(HEADER)] ^= 1 << rng.below(8);
            }
            if case % 9 == 0 {
                bytes = rng.bytes(HEADER);
            }
            check.lent.header = bytes;
            check.call(group, asked)?;
        }
    }
    Ok(())
}
