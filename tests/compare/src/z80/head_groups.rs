//! Groups that read files refused at a block's head, and v1 files refused at byte 30 or at their end.

use super::coding::{constant, Coding};
use super::maker::Maker;
use super::place_groups::{any_block_file, FILES_OF_A_GROUP};
use super::sample::{CodedBlock, FileParts, Z80_BLOCK_HEAD};
use compare::calls::files::FileChecker;
use compare::calls::offsets::KnownRefusal;
use compare::report::{Group, Outcome};
use reference::machine::{Machine, Version};
use reference::memory::PAGE;
use reference::packing::MOST_COUNTED;

/// The bytes that a v1 body stands for.
pub const V1_BODY: usize = 3 * PAGE;

/// Reads a file that is refused at the head of a block, one of those from `first` on.
fn refused_at_head(
    group: &mut Group,
    check: &mut FileChecker,
    sample: &FileParts,
    number: u32,
    (first, place): (usize, usize),
) -> Outcome {
    let borders = sample.borders();
    let known = KnownRefusal {
        number,
        offset: borders[place],
        possible: borders[first]..=borders[sample.blocks.len() - 1],
    };
    check.expect_refused(group, sample.kind(), &sample.bytes(), &known)?;
    check.expect_block(place + 1)
}

/// 9 in every block, and in one more block: its number is none of the machine's.
pub fn foreign_numbers(group: &mut Group, check: &mut FileChecker, maker: &mut Maker) -> Outcome {
    for case in 0..FILES_OF_A_GROUP {
        let good = any_block_file(maker, case);
        let owned = Machine::blocks(good.model);
        let other = |number: &u8| owned.iter().all(|(own, _)| own != number);
        let foreign: Vec<u8> = (0..=255).filter(other).collect();
        let count = good.blocks.len();
        for place in 0..=count {
            let mut sample = good.clone();
            let near = maker.rng.below(13).min(foreign.len() - 1);
            let number = maker.rng.pick(&[foreign[near], 255, foreign[0]]);
            match place < count {
                true => sample.blocks[place].number = number,
                false => {
                    let coding = maker.codings.quick(&mut maker.rng);
                    sample.blocks.push(CodedBlock { number, coding });
                }
            }
            refused_at_head(group, check, &sample, 9, (0, place))?;
            check.expect_figures(0, 0)?;
        }
    }
    Ok(())
}

/// 10 in every block from the second on, and in one more block.
pub fn numbers_twice(group: &mut Group, check: &mut FileChecker, maker: &mut Maker) -> Outcome {
    for case in 0..FILES_OF_A_GROUP {
        let good = any_block_file(maker, case);
        let count = good.blocks.len();
        for place in 1..=count {
            let mut sample = good.clone();
            let number = good.blocks[maker.rng.below(place)].number;
            let coding = maker.codings.quick(&mut maker.rng);
            sample.blocks.insert(place, CodedBlock { number, coding });
            if place < count && maker.rng.once_in(2) {
                sample.blocks.remove(place + 1);
            }
            refused_at_head(group, check, &sample, 10, (1, place))?;
            check.expect_figures(0, 0)?;
        }
    }
    Ok(())
}

/// 12 in every block: nothing, a byte too few or too many, twice as much, as much as wraps 16 bits.
pub fn wrong_lengths(group: &mut Group, check: &mut FileChecker, maker: &mut Maker) -> Outcome {
    for case in 0..FILES_OF_A_GROUP {
        let good = any_block_file(maker, case);
        for place in 0..good.blocks.len() {
            for length in [0, 1, PAGE - 1, PAGE + 1, 2 * PAGE, 0x1_0000 + PAGE] {
                let mut sample = good.clone();
                let data = constant(length, maker.rng.likely_byte());
                sample.blocks[place].coding = Coding::packed(data);
                refused_at_head(group, check, &sample, 12, (0, place))?;
                check.expect_figures(length.min(MOST_COUNTED), PAGE)?;
            }
        }
    }
    Ok(())
}

/// 8 in every block: its head cut, its data cut, or a length that the file does not have; one or two bytes left over.
pub fn cut_blocks(group: &mut Group, check: &mut FileChecker, maker: &mut Maker) -> Outcome {
    for case in 0..FILES_OF_A_GROUP {
        let good = any_block_file(maker, case);
        let (borders, file) = (good.borders(), good.bytes());
        let (first, last) = (borders[0], borders[good.blocks.len()]);
        let mut refused = |file: &[u8], place: usize| {
            let known = KnownRefusal {
                number: 8,
                offset: borders[place],
                possible: first..=last,
            };
            check.expect_refused(group, good.kind(), file, &known)?;
            check.expect_block(place + 1)?;
            check.expect_figures(0, 0)
        };
        for (place, pair) in borders.windows(2).enumerate() {
            let (head, after) = (pair[0], pair[1]);
            let inside = head + 1 + maker.rng.below(after - head - 1);
            for end in [head + 1, head + 2, head + Z80_BLOCK_HEAD, inside, after - 1] {
                refused(&file[..end], place)?;
            }
            let left = last - head - Z80_BLOCK_HEAD;
            for length in [left + 1, left + 300, 0xFFFE] {
                // 0xFFFF stands for a page
                if left < length && length < 0xFFFF {
                    let mut longer = file.clone();
                    longer[head..head + 2].copy_from_slice(&(length as u16).to_le_bytes());
                    refused(&longer, place)?;
                }
            }
        }
        for length in 1..=2 {
            let more = maker.rng.bytes(length);
            refused(&[&file[..], &more].concat(), good.blocks.len())?;
        }
    }
    Ok(())
}

/// 12 of v1 files, at byte 30: packed and plain bodies of other lengths.
pub fn v1_lengths(group: &mut Group, check: &mut FileChecker, maker: &mut Maker) -> Outcome {
    let around = [V1_BODY - 1, V1_BODY + 1, V1_BODY + 4, 0x1_0000 + V1_BODY];
    for length in (0..=4).chain([PAGE]).chain(around) {
        for is_packed in [true, false] {
            let mut sample = maker.short(Version::V1, 0);
            match is_packed {
                true => sample.body = constant(length, maker.rng.likely_byte()),
                false => {
                    sample.header[12] = maker.rng.pick(&[0, 0x0F, 255]);
                    sample.body = vec![maker.rng.byte(); length];
                    sample.marker.clear();
                }
            }
            let known = KnownRefusal::only(12, 30);
            check.expect_refused(group, "v1", &sample.bytes(), &known)?;
            check.expect_block(1)?;
            check.expect_figures(length.min(MOST_COUNTED), V1_BODY)?;
        }
    }
    Ok(())
}

/// 14 of v1 files, at their end: from the shortest on, also where the data have a bad code or stand for too much.
pub fn v1_markers(group: &mut Group, check: &mut FileChecker, maker: &mut Maker) -> Outcome {
    let lengths = (0..300).chain([771, 772, 773, 775, V1_BODY - 1, 70_000, 200_000]);
    for length in lengths {
        let mut sample = maker.short(Version::V1, 0);
        sample.body = [0xED, 0xED, 0, 0x41, 0x41].repeat(length / 5 + 1);
        sample.body.truncate(length);
        sample.marker.clear();
        if length % 2 == 0 && length > 3 {
            let end = length - 4;
            sample.body[end..].copy_from_slice(&[0x00, 0xED, 0xED, 0x00]);
            sample.body[end + length % 4] ^= 1 << maker.rng.below(8);
        }
        let known = KnownRefusal::only(14, 30 + length);
        check.expect_refused(group, "v1", &sample.bytes(), &known)?;
        check.expect_block(1)?;
        check.expect_figures(0, 0)?;
    }
    Ok(())
}
