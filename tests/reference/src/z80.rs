//! Reading and explaining `.z80` files of v1, v2 and v3 and writing v3: the plain form, the calls over byte buffers
//! that the library exports, and the forms that the benchmark measures against.

pub mod direct;
mod explain;
mod read;
mod stored;
#[cfg(test)]
mod tests;
mod walk;
mod write;

use crate::buffers;
pub use explain::{explain, ExplainFigures};
pub use read::{packed_blocks, read};
pub use write::write;

/// The longest file that is ever written.
pub const LONGEST_FILE: usize = 131_182;

/// The block length that says: a page as it is.
const PLAIN: u16 = 0xFFFF;

/// The bytes of a block's length and number.
const BLOCK_HEAD: usize = 3;

/// Reads a file into the area and the header; 0 or the number that refuses it, and the offset.
pub fn read_bytes(file: &[u8], area: &mut [u8], header: &mut [u8], offset: &mut u64) -> u32 {
    buffers::read_bytes(read, file, area, header, offset)
}

/// Writes the file of a header and an area; 0 and its length, or the number that refuses it.
pub fn write_bytes(header: &[u8], area: &[u8], out: &mut [u8], length: &mut u64) -> u32 {
    buffers::write_bytes(write, header, area, out, length)
}
