//! A file in its parts, so that each can be damaged alone.

use super::coding::Coding;
use reference::machine::{Model, Version};

/// The bytes of a block's length and number.
pub const Z80_BLOCK_HEAD: usize = 3;

#[derive(Clone)]
pub struct CodedBlock {
    pub number: u8,
    pub coding: Coding,
}

#[derive(Clone)]
pub struct FileParts {
    pub version: Version,
    pub model: Model,
    pub header: Vec<u8>,
    /// The blocks of v2 and v3.
    pub blocks: Vec<CodedBlock>,
    /// The body of v1 without its end marker, and the marker.
    pub body: Vec<u8>,
    pub marker: Vec<u8>,
    /// Bytes after the file.
    pub tail: Vec<u8>,
    /// Where the file is cut off.
    pub cut: Option<usize>,
}

impl FileParts {
    pub fn bytes(&self) -> Vec<u8> {
        let mut file = self.header.clone();
        for block in &self.blocks {
            file.extend(block.coding.length.to_le_bytes());
            file.push(block.number);
            file.extend(&block.coding.data);
        }
        file.extend(&self.body);
        file.extend(&self.marker);
        file.extend(&self.tail);
        file.truncate(self.cut.unwrap_or(file.len()));
        file
    }

    /// Where each block's head stands in the file, and where the last block ends.
    pub fn borders(&self) -> Vec<usize> {
        let mut borders = vec![self.header.len()];
        for block in &self.blocks {
            let before = borders[borders.len() - 1];
            borders.push(before + Z80_BLOCK_HEAD + block.coding.data.len());
        }
        borders
    }

    /// The kind of file that places are counted for.
    pub fn kind(&self) -> &'static str {
        match self.version {
            Version::V1 => "v1",
            Version::V2 => "v2",
            Version::V3 => "v3",
        }
    }

    /// A v1 file whose byte 12 says packed.
    pub fn is_packed_v1(&self) -> bool {
        self.version == Version::V1 && self.header[12] & 0x20 != 0 && self.header[12] != 255
    }
}
