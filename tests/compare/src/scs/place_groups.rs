//! Groups that read files refused at a known head, and the numbers that are told without an offset.

use super::faults::{damage, SCS_READ_ORDER};
use super::maker::{ScsMaker, MODELS};
use super::sample::{ScsFileParts, SizedBlock};
use compare::calls::files::FileChecker;
use compare::calls::offsets::{KnownRefusal, OffsetPlace, MANY_PLACES};
use compare::report::{Group, Outcome};
use reference::machine::Model;
use reference::memory::PAGE;
use reference::scs::{CPU_BLOCK, MEMORY_BLOCK, PORTS_BLOCK, SCS_BLOCK_HEAD};

/// The numbers with an offset for each model, and where each must be told.
pub const SCS_TOLD_PLACES: [(&str, u32, &[OffsetPlace]); 4] = [
    ("48K", 8, MANY_PLACES),
    ("48K", 42, MANY_PLACES),
    ("128K", 8, MANY_PLACES),
    ("128K", 42, MANY_PLACES),
];

const FILES: usize = 400;

/// A good file without an end byte, once in eight times with all the memory of its model and more, so that places are
/// far behind.
fn any_file(maker: &mut ScsMaker, case: usize) -> (&'static str, ScsFileParts) {
    let (kind, model) = [("48K", Model::K48), ("128K", Model::K128)][case % 2];
    let mut sample = maker.sample(model);
    if case % 8 < 2 {
        *sample.data(MEMORY_BLOCK) = vec![maker.rng.byte(); 9 * PAGE];
    }
    sample.tail.clear();
    (kind, sample.sized())
}

/// 8 in every block: its head cut, its data cut, a size that the file does not have; one to four bytes left over.
pub fn cut_blocks(group: &mut Group, check: &mut FileChecker, maker: &mut ScsMaker) -> Outcome {
    for case in 0..FILES {
        let (kind, good) = any_file(maker, case);
        let (borders, file) = (good.borders(), good.bytes());
        let (first, last) = (borders[0], borders[good.blocks.len()]);
        let mut refused = |file: &[u8], offset: usize| {
            let known = KnownRefusal {
                number: 8,
                offset,
                possible: first..=last,
            };
            check.expect_refused(group, kind, file, &known)
        };
        for (place, pair) in borders.windows(2).enumerate() {
            let (head, after) = (pair[0], pair[1]);
            let inside = head + 1 + maker.rng.below(after - head - 1);
            for end in [head + 1, head + 4, inside, after - 1] {
                refused(&file[..end], head)?;
            }
            let left = (last - head - SCS_BLOCK_HEAD) as u32;
            for size in [left + 1, left + 5, 1 << 31, u32::MAX - left, u32::MAX] {
                let mut sample = good.clone();
                sample.blocks[place].size = size;
                refused(&sample.bytes(), head)?;
            }
        }
        for length in 1..SCS_BLOCK_HEAD {
            let mut more = maker.rng.bytes(length);
            more[0] = maker.rng.pick(&[1, 2, 3, 4, 255]);
            refused(&[&file[..], &more].concat(), last)?;
        }
    }
    Ok(())
}

/// 42 in every block from the second on: the blocks before it, the second block 1, 2 or 3, and the rest of the file.
pub fn blocks_twice(group: &mut Group, check: &mut FileChecker, maker: &mut ScsMaker) -> Outcome {
    for case in 0..FILES {
        let (kind, good) = any_file(maker, case);
        for place in 1..=good.blocks.len() {
            for number in [CPU_BLOCK, PORTS_BLOCK, MEMORY_BLOCK] {
                if good.place(number).is_none_or(|first| first >= place) {
                    continue;
                }
                let mut sample = good.clone();
                let length = maker.rng.below(40);
                let again = SizedBlock::new(number, maker.rng.bytes(length));
                sample.blocks.insert(place, again);
                if maker.rng.once_in(4) {
                    sample.blocks[place + 1..].iter_mut().for_each(spoil);
                }
                let borders = sample.borders();
                let known = KnownRefusal {
                    number: 42,
                    offset: borders[place],
                    possible: borders[1]..=borders[sample.blocks.len() - 1],
                };
                check.expect_refused(group, kind, &sample.bytes(), &known)?;
            }
        }
    }
    Ok(())
}

/// A block that would be refused.
fn spoil(block: &mut SizedBlock) {
    (block.number, block.size) = (MEMORY_BLOCK, u32::MAX);
}

/// Accepted files, and refusals that are told without an offset.
pub fn without_offset(group: &mut Group, check: &mut FileChecker, maker: &mut ScsMaker) -> Outcome {
    for model in MODELS {
        for number in [0, 2, 40, 43, 41, 5] {
            for _ in 0..200 {
                let mut sample = maker.sample(model);
                damage(number, &mut sample, maker);
                check.expect_at(group, &sample.bytes(), number, 0)?;
            }
        }
    }
    Ok(())
}

/// Files of every fault, read into an area or a header of another length: no offset.
pub fn other_buffers(group: &mut Group, check: &mut FileChecker, maker: &mut ScsMaker) -> Outcome {
    for number in SCS_READ_ORDER {
        for case in 0..40 {
            let mut sample = maker.any();
            damage(number, &mut sample, maker);
            check.expect_no_offset(group, &sample.bytes(), case)?;
        }
    }
    Ok(())
}
