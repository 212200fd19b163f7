//! Groups that unpack data of the wrong length, which is counted to 65,536, and that unpack without a part.

use super::checks::PackingChecker;
use compare::bad_codes::{any_front, plain_front, CUT_CODES, ZERO_CODES};
use compare::lent::LentPart;
use compare::report::{Group, Outcome};
use reference::memory::Rng;
use reference::packing::{would_unpack, UnpackAnswer, ED, MOST_COUNTED};

/// Where runs, pages, bodies and counting end, and far past that.
const LENGTHS: [usize; 18] = [
    0, 1, 254, 255, 256, 16_383, 16_384, 16_385, 49_151, 49_152, 49_153, 65_534, 65_535, 65_536,
    65_537, 65_792, 131_072, 4_177_665,
];

/// Parts that data of any length are unpacked into.
const PARTS: [usize; 9] = [
    0, 1, 16_384, 49_152, 65_534, 65_535, 65_536, 65_537, 131_072,
];

/// Data that stand for so many bytes: codes of every count, a few plain bytes between them, some after a single ED.
fn standing_for(rng: &mut Rng, length: usize) -> Vec<u8> {
    let mut data = Vec::new();
    let mut left = length;
    while left > 0 {
        let count = match rng.below(8) {
            _ if length > 200_000 => 255,
            0..=2 => 1 + rng.below(9),
            3 => 1 + rng.below(255),
            _ => 255,
        };
        let count = count.min(left);
        match (rng.below(3), count) {
            (0, 1..=9) => data.extend(plain_front(count)),
            (1, 2..=9) => data.extend([&[ED], &plain_front(count - 1)[..]].concat()),
            _ => data.extend([ED, ED, count as u8, rng.likely_byte()]),
        }
        left -= count;
    }
    data
}

/// Each length into each part; a bad code after so much counts alone.
pub fn counted(group: &mut Group, check: &mut PackingChecker, rng: &mut Rng) -> Outcome {
    check.lengths.clear();
    for length in LENGTHS {
        for _ in 0..12 {
            let src = standing_for(rng, length);
            let counted = length.min(MOST_COUNTED);
            let by_reference = would_unpack(&src, length + 1);
            if by_reference != UnpackAnswer::WrongLength(counted) {
                return Err(format!("the reference answers {by_reference:?}"));
            }
            check.unpack(group, &src, &PARTS)?;
            let bad = [&src[..], rng.pick(&ZERO_CODES), &plain_front(80)].concat();
            check.unpack(group, &bad, &PARTS)?;
            let cut = [&src[..], rng.pick(&CUT_CODES)].concat();
            check.unpack(group, &cut, &PARTS)?;
        }
    }
    let all = LENGTHS.map(|length| length.min(MOST_COUNTED) as u64);
    match all.iter().find(|length| !check.lengths.contains(length)) {
        Some(length) => Err(format!("{length} was never found")),
        None => Ok(()),
    }
}

/// Without a part: around the length, around 65,536, and dues that are these in their low 16 or 32 bits.
pub fn without_a_part(group: &mut Group, check: &mut PackingChecker, rng: &mut Rng) -> Outcome {
    for case in 0..4_000 {
        let src = match case % 4 {
            0 => rng.codes(30),
            1 => any_front(rng, case % 300),
            2 => [any_front(rng, case % 200), rng.pick(&CUT_CODES).to_vec()].concat(),
            _ => {
                let length = rng.pick(&LENGTHS[..16]);
                standing_for(rng, length)
            }
        };
        group.inputs += 1;
        let length = match would_unpack(&src, usize::MAX) {
            UnpackAnswer::WrongLength(found) => found as u64,
            _ => src.len() as u64,
        };
        let source = LentPart::holding(&src, rng.word());
        for due in [
            0,
            length.saturating_sub(1),
            length,
            length + 1,
            16_384,
            49_152,
            65_535,
            65_536,
            65_537,
            length + 65_536,
            length + (1 << 32),
            rng.word() >> rng.below(64),
            u64::MAX,
        ] {
            let told = would_unpack(&src, due as usize);
            check.would_call(&source, &src, due, told)?;
        }
    }
    Ok(())
}
