//! Groups that read files with several faults at once: the first number of the order is given.

use super::coding::{constant, Coding};
use super::faults::{applies, damage};
use super::maker::Maker;
use super::sample::CodedBlock;
use compare::calls::expect;
use compare::calls::files::FileChecker;
use compare::choice::Choice;
use compare::report::{Group, Outcome};
use reference::machine::Version;
use reference::memory::{Rng, PAGE};
use reference::packing::ED;

const BLOCK_ORDER: [u32; 6] = [8, 9, 10, 11, 12, 13];
const V1_ORDER: [u32; 5] = [4, 5, 14, 11, 12];

/// Packed data for `full` bytes, malformed or of another length if chosen.
fn data(choice: &Choice, full: usize, rng: &mut Rng) -> Vec<u8> {
    let length = match choice.has(12) {
        true => rng.pick(&[0, 100, full - 1, full + 1, 2 * full]),
        false => full,
    };
    let mut data = constant(length, 0x41);
    if choice.has(11) {
        match rng.below(3) {
            0 => data.extend([ED, ED]),
            1 => data.extend([ED, ED, 9]),
            _ => {
                data.splice(0..0, [ED, ED, 0, 0x41]);
            }
        }
    }
    data
}

/// Every choice of faults in the last block, with and without another block missing.
pub fn in_a_block(group: &mut Group, check: &mut FileChecker, maker: &mut Maker) -> Outcome {
    for case in 0..64 * 60 {
        let choice = Choice {
            order: &BLOCK_ORDER,
            bits: case % 64,
        };
        let version = maker.rng.pick(&[Version::V2, Version::V3]);
        let mut sample = maker.sample(version);
        let last = sample.blocks.len() - 1;
        let (seen, own) = (sample.blocks[0].number, sample.blocks[last].number);
        let number = match (choice.has(9), choice.has(10)) {
            (true, _) => maker.rng.pick(&[0, 1, 2, 11, 12, 255]),
            (false, true) => seen,
            (false, false) => own,
        };
        let coding = Coding::packed(data(&choice, PAGE, &mut maker.rng));
        sample.blocks[last] = CodedBlock { number, coding };
        if choice.has(13) {
            sample.blocks.remove(1);
        }
        if choice.has(8) {
            sample.cut = Some(sample.bytes().len() - 1);
        }
        let answer = check.read(group, &sample.bytes())?;
        expect(answer, choice.first())?;
    }
    Ok(())
}

/// Every choice of faults in a packed v1 file.
pub fn in_v1(group: &mut Group, check: &mut FileChecker, maker: &mut Maker) -> Outcome {
    for case in 0..32 * 60 {
        let choice = Choice {
            order: &V1_ORDER,
            bits: case % 32,
        };
        let mut sample = maker.short(Version::V1, 0);
        if choice.has(4) {
            sample.header[12] |= 0x10;
        }
        if choice.has(5) {
            sample.header[29] |= 3;
        }
        sample.body = data(&choice, 3 * PAGE, &mut maker.rng);
        if choice.has(14) {
            sample.marker[maker.rng.below(4)] ^= 1;
        }
        let answer = check.read(group, &sample.bytes())?;
        expect(answer, choice.first())?;
    }
    Ok(())
}

/// A fault in the header and another one anywhere after it in the order.
pub fn in_the_header(group: &mut Group, check: &mut FileChecker, maker: &mut Maker) -> Outcome {
    for first in 3..=7 {
        for second in first..=14 {
            for _ in 0..120 {
                let mut sample = maker.any();
                if !applies(first, &sample) || !applies(second, &sample) {
                    continue;
                }
                damage(second, &mut sample, maker);
                damage(first, &mut sample, maker);
                let answer = check.read(group, &sample.bytes())?;
                expect(answer, first)?;
            }
        }
    }
    Ok(())
}
