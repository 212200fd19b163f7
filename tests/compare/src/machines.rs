//! Random machines, whole and damaged.

use reference::journal::LOCK;
use reference::machine::{from_header, Machine, Model, Version, HEADER, SOUND};
use reference::memory::Rng;

/// Whether a machine has the sound chip, and whether all that the chip holds is 0.
#[derive(Debug, Clone, Copy, PartialEq, Eq)]
pub enum ChipState {
    Missing,
    Silent,
    Sounding,
}

/// What the machines of each model have.
pub const CHIP_STATES: [(Model, ChipState); 5] = [
    (Model::K48, ChipState::Missing),
    (Model::K48, ChipState::Silent),
    (Model::K48, ChipState::Sounding),
    (Model::K128, ChipState::Silent),
    (Model::K128, ChipState::Sounding),
];

/// The place in this list of what a valid machine has.
pub fn chip_state_place(machine: &Machine) -> usize {
    let is_silent = machine.sound_select == 0 && machine.sound == [0; 16];
    let state = match (machine.chip, is_silent) {
        (false, _) => ChipState::Missing,
        (true, true) => ChipState::Silent,
        (true, false) => ChipState::Sounding,
    };
    let place = CHIP_STATES
        .iter()
        .position(|has| *has == (machine.model, state));
    place.expect("a valid machine")
}

/// A valid machine, random in everything.
pub fn machine(rng: &mut Rng, model: Model) -> Machine {
    let states: Vec<_> = CHIP_STATES.iter().filter(|(of, _)| *of == model).collect();
    let (_, state) = rng.pick(&states);
    with_chip(rng, model, *state)
}

/// A valid machine with this for its sound, random in all else.
pub fn with_chip(rng: &mut Rng, model: Model, state: ChipState) -> Machine {
    let mut bytes = rng.bytes(HEADER);
    bytes[6..8].fill(0);
    bytes[34] = match model {
        Model::K48 => rng.pick(&[0, 1, 3]),
        Model::K128 => rng.pick(&[4, 5, 6]),
    };
    if bytes[29] & 3 == 3 {
        bytes[29] ^= 1 << rng.below(2);
    }
    match state {
        ChipState::Missing => bytes[37] &= !SOUND,
        ChipState::Silent => bytes[38..55].fill(0),
        ChipState::Sounding => bytes[38 + rng.below(17)] |= 1 << rng.below(8),
    }
    if state != ChipState::Missing {
        bytes[37] |= SOUND;
    }
    bytes[56] %= 0x44;
    bytes[57] &= 3;
    bytes[60] = 0;
    let mut machine = from_header(Version::V3, &bytes).expect("a good header");
    if model == Model::K128 && !rng.once_in(8) {
        machine.paging &= !LOCK;
    }
    machine
}

/// The header of a random machine.
pub fn header(rng: &mut Rng, model: Model) -> Vec<u8> {
    reference::machine::header(&machine(rng, model)).to_vec()
}

/// Damages a good header: sound registers without the chip, or on a 128K the bit that only a 48K has.
pub fn damage_sound(rng: &mut Rng, header: &mut [u8]) {
    match header[34] {
        0..=3 => {
            header[37] &= !SOUND;
            header[38 + rng.below(17)] |= 1 << rng.below(8);
        }
        _ => header[37] |= SOUND,
    }
}

/// A good header, and others that are not ours: damaged in a byte that must be 0, in its sound, and of other lengths.
pub fn good_and_others(rng: &mut Rng, good: &[u8]) -> [Vec<u8>; 6] {
    let (mut bad, mut other_sound) = (good.to_vec(), good.to_vec());
    bad[60] = 1;
    damage_sound(rng, &mut other_sound);
    let longer = [good, &[0]].concat();
    let (shorter, empty) = (good[..HEADER - 1].to_vec(), Vec::new());
    [good.to_vec(), bad, other_sound, shorter, empty, longer]
}
