//! Groups that know what is found and what is due in a refused file.

use super::coding::{constant, Coding};
use super::head_groups::V1_BODY;
use super::maker::Maker;
use super::place_groups::any_block_file;
use super::sample::FileParts;
use compare::calls::files::FileChecker;
use compare::calls::{each_seen, expect};
use compare::report::{Group, Outcome};
use reference::machine::Version;
use reference::memory::PAGE;
use reference::packing::MOST_COUNTED;
use std::collections::BTreeSet;

/// Every mode of every version.
const VERSION_MODES: [(Version, &[u8]); 3] = [
    (Version::V1, &[0]),
    (Version::V2, &[0, 1, 3, 4]),
    (Version::V3, &[0, 1, 3, 4, 5, 6]),
];

/// The unpacked length of the longest packed block: 16,383 codes of 255, and two bytes.
const LONGEST_UNPACKED: usize = 16_383 * 255 + 2;

/// Unpacked lengths around each border, and far past the last.
pub const UNPACKED_LENGTHS: [usize; 15] = [
    0, 1, 255, 16_383, 16_384, 16_385, 49_151, 49_152, 49_153, 65_535, 65_536, 65_537, 81_920,
    131_072, 1_000_000,
];

/// 2 at every length that is too short, by the check that it fails.
pub fn short_files(group: &mut Group, check: &mut FileChecker, maker: &mut Maker) -> Outcome {
    for (version, modes) in VERSION_MODES {
        for mode in modes.repeat(10) {
            let file = maker.short(version, mode).bytes();
            let header = version.header_length();
            for length in 0..header {
                let due = match length {
                    0..30 => 30,
                    30..32 => 32,
                    _ => header,
                };
                check.expect_at(group, &file[..length], 2, 0)?;
                check.expect_block(0)?;
                check.expect_figures(length, due)?;
            }
        }
    }
    Ok(())
}

/// 6 of the low counter, of the high one and of both, around their ends, with and without a 7 after it.
pub fn counters(group: &mut Group, check: &mut FileChecker, maker: &mut Maker) -> Outcome {
    for mode in [0, 1, 3, 4, 5, 6] {
        let largest = if mode < 4 { 17_471 } else { 17_726 };
        let mut sample = maker.short(Version::V3, mode);
        let other = maker.rng.word() as u16;
        for low in [
            0, 255, 17_470, 17_471, 17_472, 17_726, 17_727, 0x8000, 0xFF00, 0xFFFF, other,
        ] {
            for high in [0, 3, 4, 5, 127, 128, 255] {
                for last in [0, 1] {
                    sample.header[55..57].copy_from_slice(&low.to_le_bytes());
                    (sample.header[57], sample.header[60]) = (high, last);
                    let (number, found, due) = match usize::from(low) {
                        low if low > largest => (6, low, largest),
                        _ if high > 3 => (6, usize::from(high), 3),
                        _ => (7 * u32::from(last), 0, 0),
                    };
                    check.expect_at(group, &sample.bytes(), number, 0)?;
                    check.expect_block(0)?;
                    check.expect_figures(found, due)?;
                }
            }
        }
    }
    Ok(())
}

/// 12 of every block with every unpacked length.
pub fn block_lengths(group: &mut Group, check: &mut FileChecker, maker: &mut Maker) -> Outcome {
    for case in 0..8 {
        let good = any_block_file(maker, case);
        for place in 0..good.blocks.len() {
            for length in UNPACKED_LENGTHS {
                if length != PAGE {
                    let data = data_of(length, maker);
                    wrong_length(group, check, &good, place, (data, length))?;
                }
            }
            let data = [constant(LONGEST_UNPACKED - 2, 0x41), vec![1, 2]].concat();
            wrong_length(group, check, &good, place, (data, LONGEST_UNPACKED))?;
        }
    }
    Ok(())
}

/// Packed data that stand for so many bytes: codes, or plain bytes with a single ED as the last.
fn data_of(length: usize, maker: &mut Maker) -> Vec<u8> {
    let byte = maker.rng.likely_byte();
    match length {
        0 => Vec::new(),
        1..=255 if maker.rng.once_in(2) => {
            let mut plain = vec![byte & 0x7F; length];
            plain[length - 1] = 0xED;
            plain
        }
        _ => constant(length, byte),
    }
}

fn wrong_length(
    group: &mut Group,
    check: &mut FileChecker,
    good: &FileParts,
    place: usize,
    (data, length): (Vec<u8>, usize),
) -> Outcome {
    let mut sample = good.clone();
    sample.blocks[place].coding = Coding::packed(data);
    check.expect_at(group, &sample.bytes(), 12, sample.borders()[place])?;
    check.expect_block(place + 1)?;
    check.expect_figures(length.min(MOST_COUNTED), PAGE)
}

/// 12 of packed v1 bodies: every length, and as many bytes as no block stands for.
pub fn packed_bodies(group: &mut Group, check: &mut FileChecker, maker: &mut Maker) -> Outcome {
    let more: Vec<usize> = (0..300).map(|_| maker.rng.below(100_000)).collect();
    for length in UNPACKED_LENGTHS.into_iter().chain([20_000_000]).chain(more) {
        if length == V1_BODY {
            continue;
        }
        let mut sample = maker.short(Version::V1, 0);
        sample.body = data_of(length, maker);
        check.expect_at(group, &sample.bytes(), 12, 30)?;
        check.expect_block(1)?;
        check.expect_figures(length.min(MOST_COUNTED), V1_BODY)?;
    }
    Ok(())
}

/// 12 of plain v1 bodies up to 70,000 bytes, each length around a border and every fifth of the others.
pub fn plain_bodies(group: &mut Group, check: &mut FileChecker, maker: &mut Maker) -> Outcome {
    let is_near = |length: usize| {
        [0, PAGE, V1_BODY, MOST_COUNTED, 70_000]
            .iter()
            .any(|b| b.abs_diff(length) < 40)
    };
    let mut sample = maker.short(Version::V1, 0);
    sample.marker.clear();
    for length in (0..=70_000).filter(|length| length % 5 == 0 || is_near(*length)) {
        sample.header[12] = maker.rng.pick(&[0, 0x0F, 255]);
        sample.body.resize(length, maker.rng.byte());
        if length == V1_BODY {
            check.expect_at(group, &sample.bytes(), 0, 0)?;
            continue;
        }
        check.expect_at(group, &sample.bytes(), 12, 30)?;
        check.expect_block(1)?;
        check.expect_figures(length.min(MOST_COUNTED), V1_BODY)?;
    }
    Ok(())
}

/// 13 with every choice of the blocks that are there, none and all but one among them.
pub fn missing_blocks(group: &mut Group, check: &mut FileChecker, maker: &mut Maker) -> Outcome {
    for case in 0..8 {
        let good = any_block_file(maker, case);
        let count = good.blocks.len();
        for choice in 0..1_usize << count {
            let mut sample = good.clone();
            let mut place = 0;
            sample.blocks.retain(|_| {
                place += 1;
                choice >> (place - 1) & 1 == 1
            });
            let found = sample.blocks.len();
            let number = if found < count { 13 } else { 0 };
            check.expect_at(group, &sample.bytes(), number, 0)?;
            check.expect_block(0)?;
            match number {
                0 => check.expect_figures(0, 0)?,
                _ => check.expect_figures(found, count)?,
            }
        }
    }
    Ok(())
}

/// Two blocks of the wrong length, or with another fault in the first of them: the first is told.
pub fn first_of_two(group: &mut Group, check: &mut FileChecker, maker: &mut Maker) -> Outcome {
    let (mut numbers, mut blocks) = (BTreeSet::new(), BTreeSet::new());
    for case in 0..800 {
        let mut sample = any_block_file(maker, case);
        let count = sample.blocks.len();
        let place = maker.rng.below(count - 1);
        let later = place + 1 + maker.rng.below(count - place - 1);
        let length = maker
            .rng
            .pick(&[0, 1, PAGE - 1, PAGE + 1, MOST_COUNTED + 1]);
        sample.blocks[later].coding = Coding::packed(constant(PAGE + 9, 0x42));
        let first = &mut sample.blocks[place];
        let (number, (found, due)) = match case / 8 % 3 {
            0 => {
                first.number = 0;
                (9, (0, 0))
            }
            1 => {
                first.coding = Coding::packed(vec![0xED, 0xED, 0, 1]);
                (11, (0, 0))
            }
            _ => {
                first.coding = Coding::packed(constant(length, 0x42));
                (12, (length.min(MOST_COUNTED), PAGE))
            }
        };
        expect(check.read_alone(group, &sample.bytes())?, number)?;
        check.expect_block(place + 1)?;
        check.expect_figures(found, due)?;
        numbers.insert(number);
        blocks.insert(place as u32 + 1);
    }
    each_seen(&numbers, [9, 11, 12]).and(each_seen(&blocks, 1..=7))
}
