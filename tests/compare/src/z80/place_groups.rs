//! The files of the groups that know where a file is refused, what those groups must have told, and the numbers that
//! are told without an offset.

use super::coding::Coding;
use super::faults::{applies, damage, FAULT_NUMBERS};
use super::maker::{Maker, VERSIONS};
use super::sample::FileParts;
use compare::calls::each_seen;
use compare::calls::files::FileChecker;
use compare::calls::offsets::{OffsetPlace, MANY_PLACES, ONE_PLACE};
use compare::report::{Group, Outcome};
use reference::machine::Version;
use reference::memory::PAGE;
use std::collections::BTreeSet;

/// Files with blocks: both versions with both models.
const BLOCK_FILES: [(Version, u8); 4] = [
    (Version::V2, 1),
    (Version::V2, 4),
    (Version::V3, 3),
    (Version::V3, 5),
];

/// The files of a group: a quarter of them is of each kind.
pub const FILES_OF_A_GROUP: usize = 80;

/// The numbers with an offset in each version, and where each must be told.
pub const TOLD_PLACES: [(&str, u32, &[OffsetPlace]); 13] = [
    ("v1", 11, MANY_PLACES),
    ("v1", 12, ONE_PLACE),
    ("v1", 14, ONE_PLACE),
    ("v2", 8, MANY_PLACES),
    ("v2", 9, MANY_PLACES),
    ("v2", 10, MANY_PLACES),
    ("v2", 11, MANY_PLACES),
    ("v2", 12, MANY_PLACES),
    ("v3", 8, MANY_PLACES),
    ("v3", 9, MANY_PLACES),
    ("v3", 10, MANY_PLACES),
    ("v3", 11, MANY_PLACES),
    ("v3", 12, MANY_PLACES),
];

/// A good file of the next kind. In every other round its pages are stored as they are, so that places are far apart.
pub fn any_block_file(maker: &mut Maker, case: usize) -> FileParts {
    let (version, mode) = BLOCK_FILES[case % BLOCK_FILES.len()];
    let mut sample = maker.of_mode(version, mode);
    if case % (2 * BLOCK_FILES.len()) < BLOCK_FILES.len() {
        for block in &mut sample.blocks {
            block.coding = Coding::plain(&vec![maker.rng.byte(); PAGE]);
        }
    }
    sample
}

/// Accepted files, and refusals that are told without an offset, of every version.
pub fn without_offset(group: &mut Group, check: &mut FileChecker, maker: &mut Maker) -> Outcome {
    const NUMBERS_ALONE: [u32; 7] = [2, 3, 4, 5, 6, 7, 13];
    let mut told = BTreeSet::new();
    for case in 0..60 * VERSIONS.len() {
        let good = maker.sample(VERSIONS[case % VERSIONS.len()]);
        check.expect_at(group, &good.bytes(), 0, 0)?;
        for number in NUMBERS_ALONE {
            if applies(number, &good) {
                let mut sample = good.clone();
                damage(number, &mut sample, maker);
                check.expect_at(group, &sample.bytes(), number, 0)?;
                told.insert(number);
            }
        }
    }
    each_seen(&told, NUMBERS_ALONE)
}

/// Files of every fault, read into an area or a header of another length: no offset.
pub fn other_buffers(group: &mut Group, check: &mut FileChecker, maker: &mut Maker) -> Outcome {
    let mut hidden = BTreeSet::new();
    for number in FAULT_NUMBERS {
        for case in 0..40 {
            let mut sample = maker.any();
            if !applies(number, &sample) {
                continue;
            }
            damage(number, &mut sample, maker);
            check.expect_no_offset(group, &sample.bytes(), case)?;
            hidden.insert(number);
        }
    }
    each_seen(&hidden, FAULT_NUMBERS)
}

/// A fault in the header and another one in a block or the body: no offset.
pub fn header_first(group: &mut Group, check: &mut FileChecker, maker: &mut Maker) -> Outcome {
    let (mut told, mut hidden) = (BTreeSet::new(), BTreeSet::new());
    for first in 3..=7 {
        for second in 8..=14 {
            for _ in 0..20 {
                let mut sample = maker.any();
                if !applies(first, &sample) || !applies(second, &sample) {
                    continue;
                }
                damage(second, &mut sample, maker);
                damage(first, &mut sample, maker);
                check.expect_at(group, &sample.bytes(), first, 0)?;
                told.insert(first);
                hidden.insert(second);
            }
        }
    }
    each_seen(&told, 3..=7).and(each_seen(&hidden, 8..=14))
}
