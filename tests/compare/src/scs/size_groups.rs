//! Groups about the lengths of blocks and the sizes that their heads say.

use super::maker::{ScsMaker, MODELS};
use super::sample::{ScsFileParts, SizedBlock};
use compare::calls::expect;
use compare::calls::files::FileChecker;
use compare::report::{Group, Outcome};
use reference::memory::PAGE;
use reference::scs::{CPU_SIZE, MEMORY_BLOCK, PORTS_SIZE, SCS_BLOCK_HEAD};

/// CPU and Ports blocks of every length from 0 to beyond what is due.
pub fn registers(group: &mut Group, check: &mut FileChecker, maker: &mut ScsMaker) -> Outcome {
    for model in MODELS {
        for cpu in 0..=CPU_SIZE + 6 {
            for ports in 0..=PORTS_SIZE + 6 {
                for is_swapped in [false, true] {
                    let mut sample = maker.of_lengths(model, cpu, ports);
                    if is_swapped {
                        sample.blocks.swap(1, 2);
                    }
                    let answer = check.read_alone(group, &sample.bytes())?;
                    expect(answer, 0)?;
                }
            }
        }
    }
    Ok(())
}

/// Memory blocks of every length to 100, around every page's end, and of any other length.
pub fn memory(group: &mut Group, check: &mut FileChecker, maker: &mut ScsMaker) -> Outcome {
    for model in MODELS {
        let around = (1..=10).flat_map(|page| page * PAGE - 2..=page * PAGE + 2);
        let mut lengths: Vec<usize> = (0..=100).chain(around).collect();
        lengths.extend((0..150).map(|_| maker.rng.below(12 * PAGE)));
        for length in lengths {
            let mut sample = maker.short(model);
            *sample.data(MEMORY_BLOCK) = maker.rng.bytes(length);
            let answer = check.read(group, &sample.sized().bytes())?;
            expect(answer, 0)?;
        }
    }
    Ok(())
}

/// Sizes of which there are not so many bytes: one too many, powers of two, and near 2^32.
fn too_large(left: usize, maker: &mut ScsMaker) -> Vec<u32> {
    let mut sizes: Vec<u32> = (0..=80).map(|below| u32::MAX - below).collect();
    sizes.push(left as u32 + 1);
    for bit in 12..32 {
        sizes.extend([(1 << bit) - 1, 1 << bit, (1 << bit) + left as u32]);
    }
    sizes.extend((0..20).map(|_| 4_096 + maker.rng.word() as u32 % 0xFFFF_0000));
    sizes
}

/// Sizes that lead back into the file where the place after the block is reckoned in 32 bits.
fn wrapping(head: usize, length: usize) -> Vec<u32> {
    let after_head = (head + SCS_BLOCK_HEAD) as u32;
    let places = 0..=length as u32;
    let sizes = places.map(|place| place.wrapping_sub(after_head));
    sizes.filter(|size| *size > length as u32).collect()
}

/// The parts of a short file, with a skipped block before or after the others.
fn with_skipped(maker: &mut ScsMaker) -> ScsFileParts {
    let model = maker.model();
    let mut sample = maker.short(model);
    let place = 1 + maker.rng.below(3);
    let number = maker.rng.pick(&[4, 33, 255]);
    let data = maker.rng.bytes(7);
    sample.blocks.insert(place, SizedBlock::new(number, data));
    sample.tail = maker.tail();
    sample
}

/// Each block with every size that is too large: 8 at its head.
pub fn near_2_to_32(group: &mut Group, check: &mut FileChecker, maker: &mut ScsMaker) -> Outcome {
    for _ in 0..6 {
        let sample = with_skipped(maker);
        let length = sample.bytes().len();
        for (place, head) in sample.heads().into_iter().enumerate() {
            let left = length - head - SCS_BLOCK_HEAD;
            let mut sizes = too_large(left, maker);
            sizes.extend(wrapping(head, length));
            for size in sizes {
                let mut damaged = sample.clone();
                damaged.blocks[place].size = size;
                check.expect_at(group, &damaged.bytes(), 8, head)?;
            }
        }
    }
    Ok(())
}

/// Every size of a block up to what is left of the file and one more: the rest of the file becomes other blocks.
pub fn every_size(group: &mut Group, check: &mut FileChecker, maker: &mut ScsMaker) -> Outcome {
    for _ in 0..8 {
        let sample = with_skipped(maker);
        let length = sample.bytes().len();
        for (place, head) in sample.heads().into_iter().enumerate() {
            let left = (length - head - SCS_BLOCK_HEAD) as u32;
            for size in 0..=left + 1 {
                let mut damaged = sample.clone();
                damaged.blocks[place].size = size;
                let file = damaged.bytes();
                match size == left + 1 {
                    true => check.expect_at(group, &file, 8, head)?,
                    false => drop(check.read_alone(group, &file)?),
                }
            }
        }
    }
    Ok(())
}
