//! An SCS file in its parts, so that each can be damaged alone.

use reference::scs::{SCS_BLOCK_HEAD, SCS_START};

/// A block, and the size that its head says.
#[derive(Clone)]
pub struct SizedBlock {
    pub number: u8,
    pub size: u32,
    pub data: Vec<u8>,
}

impl SizedBlock {
    pub fn new(number: u8, data: Vec<u8>) -> SizedBlock {
        SizedBlock {
            number,
            size: data.len() as u32,
            data,
        }
    }
}

#[derive(Clone)]
pub struct ScsFileParts {
    pub start: Vec<u8>,
    pub blocks: Vec<SizedBlock>,
    /// Bytes after the blocks: an end byte and what is behind it, or a cut head.
    pub tail: Vec<u8>,
    /// Where the file is cut off.
    pub cut: Option<usize>,
}

impl ScsFileParts {
    pub fn bytes(&self) -> Vec<u8> {
        let mut file = self.start.clone();
        for block in &self.blocks {
            file.push(block.number);
            file.extend(block.size.to_le_bytes());
            file.extend(&block.data);
        }
        file.extend(&self.tail);
        file.truncate(self.cut.unwrap_or(file.len()));
        file
    }

    /// The place of the first block of this number.
    pub fn place(&self, number: u8) -> Option<usize> {
        self.blocks.iter().position(|block| block.number == number)
    }

    /// The data of the first block of this number, which is there.
    pub fn data(&mut self, number: u8) -> &mut Vec<u8> {
        let place = self.place(number).expect("the block is there");
        &mut self.blocks[place].data
    }

    /// Where each block's head stands in the file, and where the last block ends.
    pub fn borders(&self) -> Vec<usize> {
        let mut borders = vec![SCS_START];
        for block in &self.blocks {
            let before = borders[borders.len() - 1];
            borders.push(before + SCS_BLOCK_HEAD + block.data.len());
        }
        borders
    }

    /// Where each block's head stands in the file.
    pub fn heads(&self) -> Vec<usize> {
        let mut borders = self.borders();
        borders.pop();
        borders
    }

    /// The size of each block as its data are.
    pub fn sized(mut self) -> ScsFileParts {
        for block in &mut self.blocks {
            block.size = block.data.len() as u32;
        }
        self
    }
}
