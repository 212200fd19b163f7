//! Headers with every value of byte 37, with every mode, sound registers and last OUT, and which of them are ours.

use crate::calls::expect;
use crate::calls::files::FileChecker;
use crate::machines;
use crate::report::{hex, Group, Outcome};
use reference::machine::{header, own_header, Model, HEADER};
use reference::memory::{Rng, MEMORY};

/// A header buffer, and whether a machine has it for its header.
pub struct SoundHeader {
    pub bytes: [u8; HEADER],
    pub is_ours: bool,
}

/// The v3 modes that are carried.
const CARRIED: [(Model, [u8; 3]); 2] = [(Model::K48, [0, 1, 3]), (Model::K128, [4, 5, 6])];

/// What bytes 38 to 54 hold: nothing, the last OUT to FFFD alone, one register alone, all of them.
const SOUND_CASES: usize = 4;

/// How many of the headers are ours. A 48K with bit 2 has any sound and without it none, and no last OUT; a 128K has no
/// bit 2, and anything else.
const OURS: usize = 3 * (4 * SOUND_CASES + 4) + 3 * (4 * SOUND_CASES * 2);

/// Runs a call with each of the headers. The reference takes for ours those that the rule has.
pub fn each_header(rng: &mut Rng, mut run: impl FnMut(&SoundHeader) -> Outcome) -> Outcome {
    let mut ours = 0;
    for sound_header in headers(rng) {
        let SoundHeader { bytes, is_ours } = &sound_header;
        if own_header(bytes).is_some() != *is_ours {
            let is_not = if *is_ours { "refuses" } else { "accepts" };
            return Err(format!("the reference {is_not} header {}", hex(bytes)));
        }
        ours += usize::from(*is_ours);
        run(&sound_header)?;
    }
    match ours == OURS {
        true => Ok(()),
        false => Err(format!("{ours} headers are ours, not {OURS}")),
    }
}

/// Writes each of the headers: 20, or it is written where there is room.
pub fn write_each(
    group: &mut Group,
    check: &mut FileChecker,
    rng: &mut Rng,
    [short, enough]: [usize; 2],
) -> Outcome {
    let memory = vec![rng.byte(); MEMORY];
    each_header(rng, |header| {
        for (room, good) in [(short, 22), (enough, 0)] {
            let due = if header.is_ours { good } else { 20 };
            expect(check.write_into(group, &header.bytes, &memory, room)?, due)?;
        }
        Ok(())
    })
}

fn headers(rng: &mut Rng) -> Vec<SoundHeader> {
    let mut all = Vec::new();
    for (model, modes) in CARRIED {
        for mode in modes {
            for value in 0..=255 {
                for case in 0..2 * SOUND_CASES {
                    let mut bytes = header(&machines::machine(rng, model));
                    (bytes[34], bytes[37]) = (mode, value);
                    put_ports(rng, &mut bytes, case);
                    let is_ours = is_ours(model, &bytes);
                    all.push(SoundHeader { bytes, is_ours });
                }
            }
        }
    }
    all.extend(other_modes(rng));
    all
}

/// Modes that are not carried: no value of byte 37 makes such a header ours.
fn other_modes(rng: &mut Rng) -> Vec<SoundHeader> {
    let mut all = Vec::new();
    for mode in [2].into_iter().chain(7..=255) {
        for value in 0..=255 {
            let model = rng.pick(&[Model::K48, Model::K128]);
            let mut bytes = header(&machines::machine(rng, model));
            (bytes[34], bytes[37]) = (mode, value);
            let is_ours = false;
            all.push(SoundHeader { bytes, is_ours });
        }
    }
    all
}

/// Each case of sound without a last OUT to 7FFD, then each with one.
fn put_ports(rng: &mut Rng, bytes: &mut [u8], case: usize) {
    bytes[35] = match case < SOUND_CASES {
        true => 0,
        false => rng.byte().max(1),
    };
    let mut sound = [0; 17];
    match case % SOUND_CASES {
        0 => {}
        1 => sound[0] = rng.byte().max(1),
        2 => sound[1 + rng.below(16)] = rng.byte().max(1),
        _ => sound = std::array::from_fn(|_| rng.byte().max(1)),
    }
    bytes[38..55].copy_from_slice(&sound);
}

fn is_ours(model: Model, bytes: &[u8]) -> bool {
    let is_silent = bytes[38..55] == [0; 17];
    match (model, bytes[37]) {
        (Model::K48, 0..=3) => bytes[35] == 0 && is_silent,
        (Model::K48, 4..=7) => bytes[35] == 0,
        (Model::K128, 0..=3) => true,
        _ => false,
    }
}
