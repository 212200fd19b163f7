//! The machines and memories of the stored files: what went into the second program, and what a reader must
//! get from the files that it wrote.

mod list;
mod settings;

pub use list::samples;
pub use settings::{asked, settings};

use crate::machine::Machine;

/// How the second program is asked to store the blocks.
#[derive(Debug, Clone, Copy, PartialEq, Eq)]
pub enum BlockStoring {
    /// Packed where that is shorter.
    Shorter,
    Packed,
    Plain,
}

/// What the second program takes for the sound chip of a 48K.
#[derive(Debug, Clone, Copy, PartialEq, Eq)]
pub enum SoundBox {
    Melodik,
    Fuller,
}

/// One stored file.
pub struct Sample {
    pub name: String,
    /// The machine's name in the program that makes the files.
    pub kind: &'static str,
    pub storing: BlockStoring,
    /// On a 48K with the chip.
    pub sound_box: Option<SoundBox>,
    /// The answer of a reader.
    pub number: u32,
    /// What an accepting reader gets.
    pub machine: Machine,
    /// The 128K area, with pages that are not owned zero.
    pub memory: Vec<u8>,
    /// The T states that the program is given; they differ where its frame is not one of the two carried.
    pub t_states: u32,
}

impl Sample {
    pub fn file_name(&self) -> String {
        format!("{}.z80", self.name)
    }

    /// The line of the table of expected answers.
    pub fn table_line(&self) -> String {
        let sum = match self.number {
            0 => format!("{:08x}", crc32(&self.memory)),
            _ => "-".into(),
        };
        format!("{} {} {sum}", self.file_name(), self.number)
    }
}

/// The CRC-32 of zip and PNG.
pub fn crc32(bytes: &[u8]) -> u32 {
    let step = |crc: u32, byte: &u8| {
        let mut crc = crc ^ u32::from(*byte);
        for _ in 0..8 {
            let low = crc & 1;
            crc = crc >> 1 ^ if low == 1 { 0xEDB8_8320 } else { 0 };
        }
        crc
    };
    !bytes.iter().fold(!0, step)
}

#[cfg(test)]
mod tests {
    use super::*;

    #[test]
    fn samples_are_valid_and_have_names_of_their_own() {
        let samples = samples();
        let mut names: Vec<_> = samples.iter().map(Sample::file_name).collect();
        names.sort();
        names.dedup();
        assert_eq!(names.len(), samples.len());
        assert!(samples.iter().all(|sample| sample.machine.is_valid()));
        assert_eq!(crc32(b"123456789"), 0xCBF4_3926);
    }
}
