//! Groups that cut files: what is left is known from where its blocks end.

use super::maker::{ScsMaker, MODELS};
use super::sample::{ScsFileParts, SizedBlock};
use compare::calls::files::FileChecker;
use compare::report::{Group, Outcome};
use reference::machine::Model;
use reference::memory::PAGE;
use reference::scs::{CPU_BLOCK, MEMORY_BLOCK, PORTS_BLOCK, SCS_START};

/// The number and the offset of a good file without what stands from this place on.
fn cut_number(sample: &ScsFileParts, end: usize) -> (u32, usize) {
    let borders = sample.borders();
    let last = borders[borders.len() - 1];
    match end {
        _ if end < SCS_START => (2, 0),
        SCS_START => (43, 0),
        _ if end > last => (0, 0),
        _ => {
            let count = borders.partition_point(|border| *border < end);
            let has = |number| sample.blocks[..count].iter().any(|b| b.number == number);
            match borders[count] == end {
                false => (8, borders[count - 1]),
                true if has(CPU_BLOCK) && has(PORTS_BLOCK) => (0, 0),
                true => (41, 0),
            }
        }
    }
}

/// A good file, cut at every byte.
fn every_cut(group: &mut Group, check: &mut FileChecker, sample: &ScsFileParts) -> Outcome {
    let file = sample.bytes();
    for end in 0..=file.len() {
        let (number, offset) = cut_number(sample, end);
        check.expect_at(group, &file[..end], number, offset)?;
    }
    Ok(())
}

/// Short files of every kind, cut at every byte.
pub fn short_files(group: &mut Group, check: &mut FileChecker, maker: &mut ScsMaker) -> Outcome {
    for case in 0..100 {
        let mut sample = maker.sample(MODELS[case % 2]);
        sample.data(MEMORY_BLOCK).truncate(60);
        every_cut(group, check, &sample.sized())?;
    }
    Ok(())
}

/// Files with all the memory, cut at every byte.
pub fn whole_files(group: &mut Group, check: &mut FileChecker, maker: &mut ScsMaker) -> Outcome {
    for (model, pages) in [(Model::K48, 3), (Model::K128, 8)] {
        let mut sample = maker.short(model);
        *sample.data(MEMORY_BLOCK) = maker.rng.bytes(pages * PAGE);
        sample.tail = vec![0; 5];
        sample.blocks.push(SizedBlock::new(9, vec![1]));
        every_cut(group, check, &sample.sized())?;
    }
    Ok(())
}
