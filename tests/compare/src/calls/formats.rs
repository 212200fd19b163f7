//! The formats of files: the calls of both sides, and what is known of them before.

use crate::ffi_snapshot as ffi;
use reference::z80::ExplainFigures;
use reference::{scs, z80};

pub type ReadCall = fn(&[u8], &mut [u8], &mut [u8], &mut u64) -> u32;
pub type WriteCall = fn(&[u8], &[u8], &mut [u8], &mut u64) -> u32;
pub type ExplainCall = fn(&[u8], &mut u64, &mut u64, &mut u64, &mut u64) -> u32;

/// Explaining by the library and by the reference.
#[derive(Clone, Copy)]
pub struct Explaining {
    pub library: ExplainCall,
    pub reference: fn(&[u8]) -> ExplainFigures,
}

/// Reading and writing by the library and by the reference.
pub struct FileFormat {
    pub library: (ReadCall, WriteCall),
    pub reference: (ReadCall, WriteCall),
    /// Explaining, where the format has it.
    pub explaining: Option<Explaining>,
    /// The longest file that is written.
    pub longest: usize,
    /// Every number that reading answers.
    pub numbers: &'static [usize],
    /// Those that it tells with an offset.
    pub with_offset: &'static [usize],
}

pub const Z80_FORMAT: FileFormat = FileFormat {
    library: (ffi::read, ffi::write),
    reference: (z80::read_bytes, z80::write_bytes),
    explaining: Some(Explaining {
        library: ffi::explain,
        reference: z80::explain,
    }),
    longest: z80::LONGEST_FILE,
    numbers: &[0, 1, 2, 3, 4, 5, 6, 7, 8, 9, 10, 11, 12, 13, 14, 20],
    with_offset: &[8, 9, 10, 11, 12, 14],
};

pub const SCS_FORMAT: FileFormat = FileFormat {
    library: (ffi::scs_read, ffi::scs_write),
    reference: (scs::read_bytes, scs::write_bytes),
    explaining: None,
    longest: scs::SCS_FILE_128K,
    numbers: &[0, 1, 2, 5, 8, 20, 40, 41, 42, 43],
    with_offset: &[8, 42],
};
