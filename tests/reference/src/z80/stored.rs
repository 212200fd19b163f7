//! The parts of a file as they are stored: the header, the blocks, the body of v1, and where each of them stands.

use super::{BLOCK_HEAD, PLAIN};
use crate::machine::{flags, Version};
use crate::memory::PAGE;
use crate::packing::UnpackAnswer;
use crate::refusal::{FileRefusal, Refusal};

const END_MARKER: [u8; 4] = [0x00, 0xED, 0xED, 0x00];

/// The version and the header; the rest of the file stands after it.
pub fn header_of(file: &[u8]) -> Result<(Version, &[u8]), FileRefusal> {
    let version = version(file)?;
    Ok((version, front(file, version.header_length())?))
}

fn version(file: &[u8]) -> Result<Version, FileRefusal> {
    if front(file, 30)?[6..8] != [0, 0] {
        return Ok(Version::V1);
    }
    match front(file, 32)?[30..] {
        [23, 0] => Ok(Version::V2),
        [54, 0] => Ok(Version::V3),
        _ => Err(Refusal::Version.into()),
    }
}

/// The first bytes of a file, which must have so many.
fn front(file: &[u8], due: usize) -> Result<&[u8], FileRefusal> {
    let short = Refusal::ShortFile.figures(file.len(), due);
    file.get(..due).ok_or(short)
}

/// The data of a block, or of a v1 body.
pub struct StoredData<'a> {
    pub is_packed: bool,
    pub bytes: &'a [u8],
    /// Where they start in the file.
    start: usize,
    /// Where a refusal of all of them points: the block's head, and the start of a v1 body.
    head: usize,
    /// The ordinal of the block, from 1.
    block: usize,
}

impl StoredData<'_> {
    /// Where they end in the file.
    pub fn end(&self) -> usize {
        self.start + self.bytes.len()
    }

    /// A refusal of all of them.
    fn refused(&self, refusal: Refusal) -> FileRefusal {
        refusal.at(self.head).in_block(self.block)
    }

    /// The refusal of a bad code that starts at this offset in them.
    pub fn malformed(&self, code: usize) -> FileRefusal {
        let offset = self.start + code;
        Refusal::Malformed.at(offset).in_block(self.block)
    }

    /// What becomes of a file whose data have this answer where `due` bytes are due.
    pub fn judge(&self, answer: UnpackAnswer, due: usize) -> Result<(), FileRefusal> {
        match answer {
            UnpackAnswer::Good => Ok(()),
            UnpackAnswer::Malformed(code) => Err(self.malformed(code)),
            UnpackAnswer::WrongLength(found) => {
                Err(self.refused(Refusal::UnpackedLength).figures(found, due))
            }
        }
    }
}

/// The body of a v1 file, without its end marker where it is packed.
pub fn v1_body<'a>(file: &'a [u8], header: &[u8]) -> Result<StoredData<'a>, FileRefusal> {
    let start = header.len();
    let body = &file[start..];
    let is_packed = flags(header) & 0x20 != 0;
    let bytes = match is_packed {
        true => body.strip_suffix(&END_MARKER),
        false => Some(body),
    };
    let unmarked = Refusal::EndMarker.at(file.len()).in_block(1);
    Ok(StoredData {
        is_packed,
        bytes: bytes.ok_or(unmarked)?,
        start,
        head: start,
        block: 1,
    })
}

pub struct StoredBlock<'a> {
    number: u8,
    pub data: StoredData<'a>,
}

impl StoredBlock<'_> {
    /// The block of this ordinal, whose head stands here.
    pub fn of(file: &[u8], head: usize, block: usize) -> Result<StoredBlock<'_>, FileRefusal> {
        let cut = Refusal::CutBlock.at(head).in_block(block);
        let (bytes, rest) = file[head..].split_at_checked(BLOCK_HEAD).ok_or(cut)?;
        let (length, is_packed) = match u16::from_le_bytes([bytes[0], bytes[1]]) {
            PLAIN => (PAGE, false),
            length => (usize::from(length), true),
        };
        let data = StoredData {
            is_packed,
            bytes: rest.get(..length).ok_or(cut)?,
            start: head + BLOCK_HEAD,
            head,
            block,
        };
        Ok(StoredBlock {
            number: bytes[2],
            data,
        })
    }

    /// The RAM page of a block number that is one of the model's and was not seen before.
    pub fn page(&self, blocks: &[(u8, usize)], seen: &[bool; 8]) -> Result<usize, FileRefusal> {
        let page = blocks.iter().find(|(number, _)| *number == self.number);
        let (_, page) = *page.ok_or(self.data.refused(Refusal::BlockNumber))?;
        match seen[page] {
            true => Err(self.data.refused(Refusal::BlockTwice)),
            false => Ok(page),
        }
    }
}
