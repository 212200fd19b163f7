//! Reading and writing over byte buffers, as the library exports them for each format. The machine crosses as its v3
//! header.

use crate::machine::{header, own_header, Machine, HEADER};
use crate::memory::MEMORY;
use crate::refusal::{number_and_offset, FileRefusal, Refusal, ACCEPTED};

/// Gives the machine and the memory of a file, or the first number that refuses it and where.
type FileReader = fn(&[u8]) -> Result<(Machine, Vec<u8>), FileRefusal>;

/// Reads a file into the area and the header. Refused: a zero area, the blank machine's header, and zeros
/// where the header is not 86 bytes long. The offset is 0 for every number that is told without one.
pub fn read_bytes(
    read: FileReader,
    file: &[u8],
    area: &mut [u8],
    header_bytes: &mut [u8],
    offset: &mut u64,
) -> u32 {
    *offset = 0;
    area.fill(0);
    header_bytes.fill(0);
    if header_bytes.len() != HEADER {
        return Refusal::Machine.number();
    }
    header_bytes.copy_from_slice(&header(&Machine::blank()));
    if area.len() != MEMORY {
        return Refusal::ReadArea.number();
    }
    let result = read(file);
    if let Ok((machine, memory)) = &result {
        header_bytes.copy_from_slice(&header(machine));
        area.copy_from_slice(memory);
    }
    let number;
    (number, *offset) = number_and_offset(&result);
    number
}

/// Writes the file of a header and an area, zeros after it. Refused: length 0 and a zero output.
pub fn write_bytes(
    write: fn(&Machine, &[u8]) -> Vec<u8>,
    header: &[u8],
    area: &[u8],
    out: &mut [u8],
    length: &mut u64,
) -> u32 {
    *length = 0;
    out.fill(0);
    let Some(machine) = own_header(header) else {
        return Refusal::Machine.number();
    };
    if area.len() != MEMORY {
        return Refusal::Area.number();
    }
    let file = write(&machine, area);
    if out.len() < file.len() {
        return Refusal::Output.number();
    }
    out[..file.len()].copy_from_slice(&file);
    *length = file.len() as u64;
    ACCEPTED
}
