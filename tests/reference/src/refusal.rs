//! The numbers that the calls answer.

#[derive(Debug, Clone, Copy, PartialEq, Eq)]
pub enum Refusal {
    ReadArea = 1,
    ShortFile = 2,
    Version = 3,
    Mode = 4,
    InterruptMode = 5,
    Counter = 6,
    Multiface = 7,
    CutBlock = 8,
    BlockNumber = 9,
    BlockTwice = 10,
    Malformed = 11,
    UnpackedLength = 12,
    BlockMissing = 13,
    EndMarker = 14,
    Machine = 20,
    Area = 21,
    Output = 22,
    Address = 23,
    OutOn48K = 24,
    Locked = 25,
    Full = 26,
    Nothing = 27,
    Damaged = 28,
    Numbers = 29,
    Page = 30,
    Rom = 31,
    Pair = 32,
    ScsHeader = 40,
    ScsBlockMissing = 41,
    ScsBlockTwice = 42,
    ScsMemoryNotFirst = 43,
}

/// The answer of an accepted call.
pub const ACCEPTED: u32 = 0;

impl Refusal {
    pub fn number(self) -> u32 {
        self as u32
    }

    /// This refusal of a file, with the offset that it is told with.
    pub fn at(self, offset: usize) -> FileRefusal {
        FileRefusal {
            refusal: self,
            offset,
            block: 0,
            found: 0,
            due: 0,
        }
    }

    /// This refusal of a file, without an offset, with what was found and what was due.
    pub fn figures(self, found: usize, due: usize) -> FileRefusal {
        self.at(0).figures(found, due)
    }
}

/// The number of a call's result.
pub fn number<T>(result: &Result<T, Refusal>) -> u32 {
    match result {
        Ok(_) => ACCEPTED,
        Err(refusal) => refusal.number(),
    }
}

/// Why a file is refused, and where.
#[derive(Debug, Clone, Copy, PartialEq, Eq)]
pub struct FileRefusal {
    pub refusal: Refusal,
    /// In the whole file; 0 where the refusal is told without an offset.
    pub offset: usize,
    /// The ordinal of a `.z80` block, from 1; 0 where none is refused.
    pub block: usize,
    /// What was found and what was due in a `.z80` file; 0 where neither is told.
    pub found: usize,
    pub due: usize,
}

impl FileRefusal {
    /// The same, in the block of this ordinal.
    pub fn in_block(self, block: usize) -> FileRefusal {
        FileRefusal { block, ..self }
    }

    /// The same, with what was found and what was due.
    pub fn figures(self, found: usize, due: usize) -> FileRefusal {
        FileRefusal { found, due, ..self }
    }
}

impl From<Refusal> for FileRefusal {
    /// A refusal that is told without an offset.
    fn from(refusal: Refusal) -> FileRefusal {
        refusal.at(0)
    }
}

/// The number of a reader's result, and its offset: 0 where the file is accepted.
pub fn number_and_offset<T>(result: &Result<T, FileRefusal>) -> (u32, u64) {
    match result {
        Ok(_) => (ACCEPTED, 0),
        Err(file) => (file.refusal.number(), file.offset as u64),
    }
}
