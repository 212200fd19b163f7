//! The machine that a `.z80` file carries: its record, which records are valid, and the blank one.

mod clock;
mod header;
pub mod looks;
mod paging;
mod pairs;
#[cfg(test)]
mod tests;

pub use clock::{counters, position, quarter, BadCounter};
pub use header::{flags, from_header, header, own_header, Version, HEADER, SOUND};
pub use paging::{owns, page_at};
pub use pairs::PAIRS;

#[derive(Debug, Clone, Copy, PartialEq, Eq)]
pub enum Model {
    K48,
    K128,
}

#[derive(Debug, Clone, Copy, PartialEq, Eq)]
pub enum Attachment {
    None,
    Interface1,
    Mgt,
}

#[derive(Debug, Clone, Copy, PartialEq, Eq)]
pub enum Video {
    Normal,
    High,
    Low,
}

/// Header bytes 59 and 61 to 85, kept as they are.
pub const SIDE_BYTES: usize = 26;

#[derive(Debug, Clone, PartialEq, Eq)]
pub struct Machine {
    pub model: Model,
    pub attachment: Attachment,
    pub a: u8,
    pub f: u8,
    pub bc: u16,
    pub de: u16,
    pub hl: u16,
    pub alt_a: u8,
    pub alt_f: u8,
    pub alt_bc: u16,
    pub alt_de: u16,
    pub alt_hl: u16,
    pub ix: u16,
    pub iy: u16,
    pub sp: u16,
    pub pc: u16,
    pub i: u8,
    pub r: u8,
    pub iff1: bool,
    pub iff2: bool,
    pub interrupt_mode: u8,
    pub border: u8,
    pub issue2: bool,
    pub double_interrupts: bool,
    pub video: Video,
    pub joystick: u8,
    /// The last OUT to 7FFD.
    pub paging: u8,
    /// Header byte 36.
    pub interface1_rom: u8,
    pub r_emulation: bool,
    pub ldir_emulation: bool,
    /// Whether it has the sound chip; a 128K always has.
    pub chip: bool,
    /// The last OUT to FFFD.
    pub sound_select: u8,
    pub sound: [u8; 16],
    pub frame_position: u32,
    pub side: [u8; SIDE_BYTES],
}

impl Machine {
    /// 48K, no attachment, no sound chip, every number 0, every switch off, video normal.
    pub fn blank() -> Machine {
        Machine {
            model: Model::K48,
            attachment: Attachment::None,
            a: 0,
            f: 0,
            bc: 0,
            de: 0,
            hl: 0,
            alt_a: 0,
            alt_f: 0,
            alt_bc: 0,
            alt_de: 0,
            alt_hl: 0,
            ix: 0,
            iy: 0,
            sp: 0,
            pc: 0,
            i: 0,
            r: 0,
            iff1: false,
            iff2: false,
            interrupt_mode: 0,
            border: 0,
            issue2: false,
            double_interrupts: false,
            video: Video::Normal,
            joystick: 0,
            paging: 0,
            interface1_rom: 0,
            r_emulation: false,
            ldir_emulation: false,
            chip: false,
            sound_select: 0,
            sound: [0; 16],
            frame_position: 0,
            side: [0; SIDE_BYTES],
        }
    }

    /// The blank machine as one of this model, with the chip where that is a 128K.
    pub fn blank_as(model: Model) -> Machine {
        Machine {
            model,
            chip: model == Model::K128,
            ..Machine::blank()
        }
    }

    pub fn is_valid(&self) -> bool {
        let is_silent = self.sound_select == 0 && self.sound == [0; 16];
        let is_of_model = match self.model {
            Model::K48 => self.paging == 0,
            Model::K128 => self.chip,
        };
        self.interrupt_mode <= 2
            && self.border <= 7
            && self.joystick <= 3
            && self.frame_position < 4 * quarter(self.model)
            && is_of_model
            && (self.chip || is_silent)
    }

    /// The block numbers of the model's pages, ascending, each with its RAM page.
    pub fn blocks(model: Model) -> &'static [(u8, usize)] {
        match model {
            Model::K48 => &[(4, 2), (5, 0), (8, 5)],
            Model::K128 => &[
                (3, 0),
                (4, 1),
                (5, 2),
                (6, 3),
                (7, 4),
                (8, 5),
                (9, 6),
                (10, 7),
            ],
        }
    }
}
