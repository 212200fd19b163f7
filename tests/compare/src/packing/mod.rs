//! The comparison of packing: the calls that are checked, and the groups.

pub mod checks;
pub mod general_groups;
pub mod length_groups;
pub mod pack_groups;
pub mod place_groups;
pub mod step_groups;
pub mod unpack_groups;

use reference::memory::Rng;

/// Every list over ED, 00 and 41 of up to `longest` bytes.
pub fn lists(longest: u32) -> impl Iterator<Item = Vec<u8>> {
    (0..=longest).flat_map(|length| {
        (0..3u32.pow(length)).map(move |number| {
            let digit = |place| number / 3u32.pow(place) % 3;
            let byte = |place| [0xED, 0x00, 0x41][digit(place) as usize];
            (0..length).map(byte).collect()
        })
    })
}

/// Random runs; once in 50 cases long ones, and once many.
pub fn list_of_runs(rng: &mut Rng, case: usize) -> Vec<u8> {
    let (most, longest) = match case % 50 {
        0 => (20, 600),
        1 => (300, 8),
        _ => (14, 7),
    };
    rng.runs(most, longest)
}

/// Random bytes, in odd cases likely ones; once in 100 cases a long list.
pub fn random_list(rng: &mut Rng, case: usize) -> Vec<u8> {
    let length = rng.below(if case.is_multiple_of(100) { 3000 } else { 40 });
    match case % 2 {
        0 => rng.bytes(length),
        _ => (0..length).map(|_| rng.likely_byte()).collect(),
    }
}
