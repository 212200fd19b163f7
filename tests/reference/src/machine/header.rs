//! The header bytes of a `.z80` file: read in every version, made in v3.

use super::{counters, position, Attachment, Machine, Model, Video};
use crate::refusal::{FileRefusal, Refusal};

/// The length of a v3 header.
pub const HEADER: usize = 86;

/// The bit of byte 37 by which a 48K machine has the sound chip; it says nothing on a 128K.
pub const SOUND: u8 = 0x04;

#[derive(Debug, Clone, Copy, PartialEq, Eq)]
pub enum Version {
    V1,
    V2,
    V3,
}

impl Version {
    pub fn header_length(self) -> usize {
        match self {
            Version::V1 => 30,
            Version::V2 => 55,
            Version::V3 => HEADER,
        }
    }
}

fn word(bytes: &[u8], at: usize) -> u16 {
    u16::from_le_bytes([bytes[at], bytes[at + 1]])
}

/// Byte 12, in which 255 counts as 1.
pub fn flags(header: &[u8]) -> u8 {
    match header[12] {
        255 => 1,
        flags => flags,
    }
}

/// The machine of a whole header of this version.
pub fn from_header(version: Version, bytes: &[u8]) -> Result<Machine, FileRefusal> {
    let (model, attachment) = mode(version, bytes).ok_or(Refusal::Mode)?;
    let mut machine = first_part(bytes);
    machine.model = model;
    machine.attachment = attachment;
    if machine.interrupt_mode == 3 {
        return Err(Refusal::InterruptMode.into());
    }
    // What v1 and v2 give for bytes 61 and 62; v3 has its own.
    machine.side[1] = 255;
    machine.side[2] = 255;
    if version != Version::V1 {
        second_part(&mut machine, bytes);
    }
    if version == Version::V3 {
        third_part(&mut machine, bytes)?;
    }
    Ok(machine)
}

fn mode(version: Version, bytes: &[u8]) -> Option<(Model, Attachment)> {
    use Attachment::{Interface1, Mgt, None as Bare};
    use Model::{K128, K48};
    match version {
        Version::V1 => (flags(bytes) & 0x10 == 0).then_some((K48, Bare)),
        Version::V2 => match bytes[34] {
            0 => Some((K48, Bare)),
            1 => Some((K48, Interface1)),
            3 => Some((K128, Bare)),
            4 => Some((K128, Interface1)),
            _ => None,
        },
        Version::V3 => match bytes[34] {
            0 => Some((K48, Bare)),
            1 => Some((K48, Interface1)),
            3 => Some((K48, Mgt)),
            4 => Some((K128, Bare)),
            5 => Some((K128, Interface1)),
            6 => Some((K128, Mgt)),
            _ => None,
        },
    }
}

/// Bytes 0 to 29.
fn first_part(bytes: &[u8]) -> Machine {
    let flags = flags(bytes);
    let switches = bytes[29];
    Machine {
        a: bytes[0],
        f: bytes[1],
        bc: word(bytes, 2),
        hl: word(bytes, 4),
        pc: word(bytes, 6),
        sp: word(bytes, 8),
        i: bytes[10],
        r: bytes[11] % 128 + flags % 2 * 128,
        border: flags >> 1 & 7,
        de: word(bytes, 13),
        alt_bc: word(bytes, 15),
        alt_de: word(bytes, 17),
        alt_hl: word(bytes, 19),
        alt_a: bytes[21],
        alt_f: bytes[22],
        iy: word(bytes, 23),
        ix: word(bytes, 25),
        iff1: bytes[27] != 0,
        iff2: bytes[28] != 0,
        interrupt_mode: switches & 3,
        issue2: switches & 4 != 0,
        double_interrupts: switches & 8 != 0,
        video: match switches >> 4 & 3 {
            1 => Video::High,
            3 => Video::Low,
            _ => Video::Normal,
        },
        joystick: switches >> 6,
        ..Machine::blank()
    }
}

/// Bytes 32 to 54.
fn second_part(machine: &mut Machine, bytes: &[u8]) {
    machine.pc = word(bytes, 32);
    machine.interface1_rom = bytes[36];
    machine.r_emulation = bytes[37] & 1 != 0;
    machine.ldir_emulation = bytes[37] & 2 != 0;
    if machine.model == Model::K128 {
        machine.paging = bytes[35];
    }
    machine.chip = machine.model == Model::K128 || bytes[37] & SOUND != 0;
    if machine.chip {
        machine.sound_select = bytes[38];
        machine.sound.copy_from_slice(&bytes[39..55]);
    }
}

/// Bytes 55 to 85.
fn third_part(machine: &mut Machine, bytes: &[u8]) -> Result<(), FileRefusal> {
    let position = position(machine.model, word(bytes, 55), bytes[57]);
    machine.frame_position = position.map_err(|bad| {
        let (found, due) = (bad.value as usize, bad.largest as usize);
        Refusal::Counter.figures(found, due)
    })?;
    if bytes[60] != 0 {
        return Err(Refusal::Multiface.into());
    }
    machine.side[0] = bytes[59];
    machine.side[1..].copy_from_slice(&bytes[61..86]);
    Ok(())
}

/// The v3 header of a valid machine.
pub fn header(machine: &Machine) -> [u8; HEADER] {
    let mut bytes = [0; HEADER];
    put_registers(machine, &mut bytes);
    bytes[12] = (machine.r / 128) | (machine.border << 1);
    bytes[29] = switches(machine);
    put_word(&mut bytes, 30, 54);
    put_word(&mut bytes, 32, machine.pc);
    bytes[34] = mode_byte(machine);
    bytes[35] = machine.paging;
    bytes[36] = machine.interface1_rom;
    bytes[37] = emulation(machine);
    bytes[38] = machine.sound_select;
    bytes[39..55].copy_from_slice(&machine.sound);
    let (low, high) = counters(machine.model, machine.frame_position);
    put_word(&mut bytes, 55, low);
    bytes[57] = high;
    bytes[59] = machine.side[0];
    bytes[61..86].copy_from_slice(&machine.side[1..]);
    bytes
}

fn put_word(bytes: &mut [u8], at: usize, value: u16) {
    bytes[at..at + 2].copy_from_slice(&value.to_le_bytes());
}

/// Bytes 0 to 28 without byte 12.
fn put_registers(machine: &Machine, bytes: &mut [u8]) {
    bytes[0] = machine.a;
    bytes[1] = machine.f;
    put_word(bytes, 2, machine.bc);
    put_word(bytes, 4, machine.hl);
    put_word(bytes, 8, machine.sp);
    bytes[10] = machine.i;
    bytes[11] = machine.r % 128;
    put_word(bytes, 13, machine.de);
    put_word(bytes, 15, machine.alt_bc);
    put_word(bytes, 17, machine.alt_de);
    put_word(bytes, 19, machine.alt_hl);
    bytes[21] = machine.alt_a;
    bytes[22] = machine.alt_f;
    put_word(bytes, 23, machine.iy);
    put_word(bytes, 25, machine.ix);
    bytes[27] = u8::from(machine.iff1);
    bytes[28] = u8::from(machine.iff2);
}

/// Byte 29.
fn switches(machine: &Machine) -> u8 {
    let video = match machine.video {
        Video::Normal => 0,
        Video::High => 1,
        Video::Low => 3,
    };
    machine.interrupt_mode
        | u8::from(machine.issue2) << 2
        | u8::from(machine.double_interrupts) << 3
        | video << 4
        | machine.joystick << 6
}

/// Byte 37.
fn emulation(machine: &Machine) -> u8 {
    let sound = match machine.model {
        Model::K48 if machine.chip => SOUND,
        _ => 0,
    };
    u8::from(machine.r_emulation) | u8::from(machine.ldir_emulation) << 1 | sound
}

/// Byte 34 in v3.
fn mode_byte(machine: &Machine) -> u8 {
    let first = match machine.model {
        Model::K48 => [0, 1, 3],
        Model::K128 => [4, 5, 6],
    };
    first[machine.attachment as usize]
}

/// The machine whose v3 header these bytes are, if they are a header that our writer makes.
pub fn own_header(bytes: &[u8]) -> Option<Machine> {
    let is_v3 = bytes.len() == HEADER && word(bytes, 6) == 0 && word(bytes, 30) == 54;
    if !is_v3 {
        return None;
    }
    let machine = from_header(Version::V3, bytes).ok()?;
    (header(&machine) == bytes).then_some(machine)
}
