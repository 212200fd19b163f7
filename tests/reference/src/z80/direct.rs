//! The same calls without a copy, with either form of packing: pages unpacked in the area, blocks packed in
//! the output.

use super::explain::{explain_by, ExplainFigures};
use super::stored::StoredData;
use super::walk::walk;
use super::{BLOCK_HEAD, PLAIN};
use crate::machine::{header, own_header, Machine, HEADER};
use crate::memory::{MEMORY, PAGE};
use crate::packing::{PackingForm, UnpackAnswer};
use crate::refusal::{number, number_and_offset, FileRefusal, Refusal};

/// `read_bytes` of the plain form.
pub fn read_bytes<F: PackingForm>(
    file: &[u8],
    area: &mut [u8],
    header_bytes: &mut [u8],
    offset: &mut u64,
) -> u32 {
    if header_bytes.len() != HEADER {
        *offset = 0;
        area.fill(0);
        header_bytes.fill(0);
        return Refusal::Machine.number();
    }
    let result = read_into::<F>(file, area);
    let machine = match &result {
        Ok(machine) => machine,
        Err(_) => {
            area.fill(0);
            &Machine::blank()
        }
    };
    header_bytes.copy_from_slice(&header(machine));
    let number;
    (number, *offset) = number_and_offset(&result);
    number
}

fn read_into<F: PackingForm>(file: &[u8], area: &mut [u8]) -> Result<Machine, FileRefusal> {
    if area.len() != MEMORY {
        return Err(Refusal::ReadArea.into());
    }
    area.fill(0);
    walk(file, |data, pages| {
        if let [page] = pages {
            return bring::<F>(data, &mut area[page * PAGE..][..PAGE]);
        }
        let mut body = vec![0; pages.len() * PAGE];
        bring::<F>(data, &mut body)?;
        for (part, page) in body.chunks(PAGE).zip(pages) {
            area[page * PAGE..][..PAGE].copy_from_slice(part);
        }
        Ok(())
    })
}

/// Brings what the data stand for into the whole part.
fn bring<F: PackingForm>(data: &StoredData, part: &mut [u8]) -> Result<(), FileRefusal> {
    let answer = match data.is_packed {
        true => F::unpack_into(data.bytes, part),
        false if data.bytes.len() == part.len() => {
            part.copy_from_slice(data.bytes);
            UnpackAnswer::Good
        }
        false => UnpackAnswer::of_length(data.bytes.len(), part.len()),
    };
    data.judge(answer, part.len())
}

/// `explain` of the plain form.
pub fn explain<F: PackingForm>(file: &[u8]) -> ExplainFigures {
    explain_by(F::would_unpack, file)
}

/// `write_bytes` of the plain form.
pub fn write_bytes<F: PackingForm>(
    header: &[u8],
    area: &[u8],
    out: &mut [u8],
    length: &mut u64,
) -> u32 {
    let result = write_into::<F>(header, area, out);
    let end = *result.as_ref().unwrap_or(&0);
    out[end..].fill(0);
    *length = end as u64;
    number(&result)
}

fn write_into<F: PackingForm>(
    header: &[u8],
    area: &[u8],
    out: &mut [u8],
) -> Result<usize, Refusal> {
    let machine = own_header(header).ok_or(Refusal::Machine)?;
    if area.len() != MEMORY {
        return Err(Refusal::Area);
    }
    let front = out.get_mut(..HEADER).ok_or(Refusal::Output)?;
    front.copy_from_slice(header);
    let mut end = HEADER;
    for &(number, page) in Machine::blocks(machine.model) {
        let bytes = &area[page * PAGE..][..PAGE];
        let block = write_block::<F>(number, bytes, &mut out[end..]);
        end += block.ok_or(Refusal::Output)?;
    }
    Ok(end)
}

/// Writes a block to the front of `out`; its length with the head, or nothing if it does not fit.
fn write_block<F: PackingForm>(number: u8, bytes: &[u8], out: &mut [u8]) -> Option<usize> {
    let (head, room) = out.split_at_mut_checked(BLOCK_HEAD)?;
    let shorter = room.len().min(PAGE - 1);
    let (length, taken) = match F::pack_into(bytes, &mut room[..shorter]) {
        Some(length) => (length as u16, length),
        None => {
            room.get_mut(..PAGE)?.copy_from_slice(bytes);
            (PLAIN, PAGE)
        }
    };
    head[..2].copy_from_slice(&length.to_le_bytes());
    head[2] = number;
    Some(BLOCK_HEAD + taken)
}
