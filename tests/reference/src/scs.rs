//! SCS files of the Sam emulator with a Spectrum inside, already unwrapped: read and written, by value and over byte
//! buffers, and what such a file keeps of a machine.

mod kept;
mod read;
#[cfg(test)]
mod tests;
mod write;

use crate::buffers;
use crate::machine::Model;
pub use kept::kept;
pub use read::read;
pub use write::write;

/// The bytes before the first block: "SamSnap!", the emulator, its version, the hardware.
pub const SCS_START: usize = 15;

/// The bytes of a block's number and size.
pub const SCS_BLOCK_HEAD: usize = 5;

/// The numbers of the three blocks that a file must have, and what is taken of the first two.
pub const CPU_BLOCK: u8 = 1;
pub const PORTS_BLOCK: u8 = 2;
pub const MEMORY_BLOCK: u8 = 3;
pub const CPU_SIZE: usize = 34;
pub const PORTS_SIZE: usize = 19;

const IDENTITY: &[u8; 8] = b"SamSnap!";

/// The lengths of the files that are written.
pub const SCS_FILE_48K: usize = 49_240;
pub const SCS_FILE_128K: usize = 131_160;

/// The RAM pages in a Memory block, in its order: 4000 upwards in 48K.
fn memory_pages(model: Model) -> &'static [usize] {
    match model {
        Model::K48 => &[5, 2, 0],
        Model::K128 => &[0, 1, 2, 3, 4, 5, 6, 7],
    }
}

/// Reads a file into the area and the header; 0 or the number that refuses it, and the offset.
pub fn read_bytes(file: &[u8], area: &mut [u8], header: &mut [u8], offset: &mut u64) -> u32 {
    buffers::read_bytes(read, file, area, header, offset)
}

/// Writes the file of a header and an area; 0 and its length, or the number that refuses it.
pub fn write_bytes(header: &[u8], area: &[u8], out: &mut [u8], length: &mut u64) -> u32 {
    buffers::write_bytes(write, header, area, out, length)
}
