//! One way through a file for every reader: it decides in their order all that needs no unpacking, and hands the
//! data on.

use super::stored::{header_of, v1_body, StoredBlock, StoredData};
use crate::machine::{from_header, Machine, Model, Version};
use crate::refusal::{FileRefusal, Refusal};

/// The RAM pages of a v1 body, from 4000 upwards.
const V1_PAGES: [usize; 3] = [5, 2, 0];

/// The machine of a file. `take` gets the data of the v1 body or of each block, and the RAM pages that they stand for.
pub fn walk<'a>(
    file: &'a [u8],
    mut take: impl FnMut(&StoredData<'a>, &[usize]) -> Result<(), FileRefusal>,
) -> Result<Machine, FileRefusal> {
    let (version, header) = header_of(file)?;
    let machine = from_header(version, header)?;
    match version {
        Version::V1 => take(&v1_body(file, header)?, &V1_PAGES)?,
        _ => walk_blocks(machine.model, file, header.len(), take)?,
    }
    Ok(machine)
}

fn walk_blocks<'a>(
    model: Model,
    file: &'a [u8],
    start: usize,
    mut take: impl FnMut(&StoredData<'a>, &[usize]) -> Result<(), FileRefusal>,
) -> Result<(), FileRefusal> {
    let blocks = Machine::blocks(model);
    let (mut seen, mut count) = ([false; 8], 0);
    let mut head = start;
    while head < file.len() {
        let block = StoredBlock::of(file, head, count + 1)?;
        let page = block.page(blocks, &seen)?;
        take(&block.data, &[page])?;
        seen[page] = true;
        count += 1;
        head = block.data.end();
    }
    match count == blocks.len() {
        true => Ok(()),
        false => Err(Refusal::BlockMissing.figures(count, blocks.len())),
    }
}
