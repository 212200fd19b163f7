//! Files of which a group knows before what is told of them.

use super::expect;
use super::files::FileChecker;
use super::offsets::KnownRefusal;
use crate::report::{Group, Outcome};
use reference::machine::HEADER;
use reference::memory::MEMORY;

impl FileChecker {
    /// Reads a file whose number and offset the group knows before.
    pub fn expect_at(
        &mut self,
        group: &mut Group,
        file: &[u8],
        number: u32,
        offset: usize,
    ) -> Outcome {
        expect(self.read_alone(group, file)?, number)?;
        self.expect_offset(offset)
    }

    /// The last read told the offset that the group knows before.
    pub fn expect_offset(&self, offset: usize) -> Outcome {
        match self.last_offset {
            told if told == offset as u64 => Ok(()),
            told => Err(format!("the reference tells offset {told}, not {offset}")),
        }
    }

    /// The file of the last read was explained with the ordinal that the group knows before.
    pub fn expect_block(&self, block: usize) -> Outcome {
        match self.last_explained.block {
            told if told == block as u64 => Ok(()),
            told => Err(format!("the reference tells block {told}, not {block}")),
        }
    }

    /// It was explained with what was found and what was due as the group knows them before.
    pub fn expect_figures(&self, found: usize, due: usize) -> Outcome {
        let told = (self.last_explained.found, self.last_explained.due);
        match told == (found as u64, due as u64) {
            true => Ok(()),
            false => Err(format!("the reference tells {told:?}, not {found}, {due}")),
        }
    }

    /// Reads a file of this kind that is refused as the group knows before.
    pub fn expect_refused(
        &mut self,
        group: &mut Group,
        kind: &'static str,
        file: &[u8],
        known: &KnownRefusal,
    ) -> Outcome {
        self.expect_at(group, file, known.number, known.offset)?;
        self.places.add(kind, known)
    }

    /// Reads any file into an area or a header of another length, by the case: 1 or 20, and no offset.
    pub fn expect_no_offset(&mut self, group: &mut Group, file: &[u8], case: usize) -> Outcome {
        let (area, header, due) = match case % 4 {
            0 => (MEMORY - 1, HEADER, 1),
            1 => (MEMORY + 1, HEADER, 1),
            2 => (MEMORY, HEADER - 1, 20),
            _ => (0, HEADER + 1, 20),
        };
        expect(self.read_once(group, file, area, header)?, due)?;
        self.expect_offset(0)
    }
}
