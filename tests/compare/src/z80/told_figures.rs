//! What the explanations of a run must have told.

use super::explain_groups::UNPACKED_LENGTHS;
use compare::calls::explain::FigureCounts;
use compare::report::Outcome;
use reference::packing::MOST_COUNTED;
use std::ops::RangeInclusive;

/// Each number, and the blocks that it must be told in.
const TOLD_BLOCKS: [(u32, RangeInclusive<u64>); 14] = [
    (0, 0..=0),
    (2, 0..=0),
    (3, 0..=0),
    (4, 0..=0),
    (5, 0..=0),
    (6, 0..=0),
    (7, 0..=0),
    (8, 1..=9),
    (9, 1..=9),
    (10, 2..=9),
    (11, 1..=8),
    (12, 1..=8),
    (13, 0..=0),
    (14, 1..=1),
];

/// Each number was told in each block that it can be told in.
pub fn blocks(told: &FigureCounts) -> Outcome {
    told.expect_blocks(&TOLD_BLOCKS)
}

/// The least and the greatest of what can be found was told with each of what can be due.
pub fn pairs(told: &FigureCounts) -> Outcome {
    let short = |range: RangeInclusive<u64>, due| range.map(move |length| (length, due));
    told.expect_pairs(2, short(0..=29, 30))?;
    told.expect_pairs(2, short(30..=31, 32))?;
    told.expect_pairs(2, short(32..=54, 55))?;
    told.expect_pairs(2, short(32..=85, 86))?;
    told.expect_dues(2, &[30, 32, 55, 86])?;
    told.expect_pairs(6, [(17_472, 17_471), (65_535, 17_471), (17_727, 17_726)])?;
    told.expect_pairs(6, [(65_535, 17_726), (4, 3), (255, 3)])?;
    told.expect_dues(6, &[3, 17_471, 17_726])?;
    for due in [16_384, 49_152] {
        let others = UNPACKED_LENGTHS.iter().filter(|length| **length != due);
        let found = others.map(|length| *length.min(&MOST_COUNTED) as u64);
        told.expect_pairs(12, found.map(|found| (found, due as u64)))?;
    }
    told.expect_dues(12, &[16_384, 49_152])?;
    told.expect_pairs(13, (0..3).map(|found| (found, 3)))?;
    told.expect_pairs(13, (0..8).map(|found| (found, 8)))?;
    told.expect_dues(13, &[3, 8])
}
