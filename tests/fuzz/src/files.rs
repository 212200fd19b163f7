//! Files of one format: read, and written from what an input describes.

use super::input::Picked;
use super::reached::{mark, FormatRows, BLOCK_ROW, FOUND_ROW, SCS_ROWS, Z80_ROWS};
use compare::calls::files::FileChecker;
use compare::calls::formats::{SCS_FORMAT, Z80_FORMAT};
use compare::machines::chip_state_place;
use compare::report::{Group, Outcome};
use reference::machine::{own_header, Machine};
use reference::memory::{MEMORY, PAGE};
use reference::{scs, z80};
use std::collections::BTreeSet;

pub struct FormatTarget {
    pub checker: FileChecker,
    rows: FormatRows,
    /// Cases of a file that the rules treat alike.
    case_of: fn(&[u8]) -> u8,
    /// The file of a machine and a memory.
    file_of: fn(&Machine, &[u8]) -> Vec<u8>,
    /// Whether reading a file also explains it.
    is_explained: bool,
    /// What the machines that were read have for their sound, by its place in the list of these.
    pub sounds: BTreeSet<usize>,
}

impl FormatTarget {
    pub fn z80() -> FormatTarget {
        FormatTarget {
            checker: FileChecker::new(Z80_FORMAT, 0),
            rows: Z80_ROWS,
            case_of: z80_case,
            file_of: z80::write,
            is_explained: true,
            sounds: BTreeSet::new(),
        }
    }

    pub fn scs() -> FormatTarget {
        FormatTarget {
            checker: FileChecker::new(SCS_FORMAT, 0),
            rows: SCS_ROWS,
            case_of: scs_case,
            file_of: scs::write,
            is_explained: false,
            sounds: BTreeSet::new(),
        }
    }

    /// A file, read and explained; what it holds is written and read back, and written into an output of another length.
    pub fn read(&mut self, calls: &mut Group, picked: &Picked, file: &[u8]) -> Outcome {
        let checker = &mut self.checker;
        let number = checker.read_into(calls, file, picked.area, picked.header)?;
        let case = picked.case(number, (self.case_of)(file));
        mark(self.rows.read, number, case);
        mark(self.rows.offset, number, far_case(checker.last_offset));
        if self.is_explained {
            let told = &checker.last_explained;
            mark(BLOCK_ROW, told.number, told.block.min(7) as u8);
            mark(FOUND_ROW, told.number, far_case(told.found));
        }
        if number != 0 {
            return Ok(());
        }
        let (machine, memory) = checker.last_read();
        let room = picked.room(checker.last_length);
        if let Some(machine) = own_header(&machine) {
            let sound = chip_state_place(&machine);
            mark(self.rows.sound, number, sound as u8);
            self.sounds.insert(sound);
        }
        self.write_into(calls, picked, &machine, &memory, room)
    }

    pub fn write(
        &mut self,
        calls: &mut Group,
        picked: &Picked,
        header: &[u8],
        memory: &[u8],
    ) -> Outcome {
        let length = match own_header(header) {
            Some(machine) if memory.len() == MEMORY => (self.file_of)(&machine, memory).len(),
            _ => PAGE,
        };
        self.write_into(calls, picked, header, memory, picked.room(length))
    }

    fn write_into(
        &mut self,
        calls: &mut Group,
        picked: &Picked,
        header: &[u8],
        memory: &[u8],
        room: usize,
    ) -> Outcome {
        let number = self.checker.write_into(calls, header, memory, room)?;
        let case = picked.case(number, picked.choice);
        mark(self.rows.write, number, case);
        Ok(())
    }
}

/// Offsets that are about as far from the start, and figures about as far from 0: those below 16, below 64, below 256,
/// and so on.
fn far_case(number: u64) -> u8 {
    let bits = u64::BITS - number.leading_zeros();
    (bits as u8).saturating_sub(4).div_ceil(2)
}

/// The version of a `.z80` file, and whether its byte 12 is the 255 that counts as 1.
fn z80_case(file: &[u8]) -> u8 {
    let version = match file.get(30) {
        _ if file.get(6..8) != Some(&[0, 0]) => 1,
        Some(23) => 2,
        Some(54) => 3,
        _ => 0,
    };
    2 * version + u8::from(file.get(12) == Some(&255))
}

/// The hardware number of an SCS file, and whether it closes with a zero, as one does that has an end byte.
fn scs_case(file: &[u8]) -> u8 {
    let hardware = file.get(14).map_or(3, |number| (*number).min(3));
    2 * hardware + u8::from(file.last() == Some(&0))
}
