//! The machine and the 128K memory of a file, or the first number that refuses it and where.

use super::stored::StoredData;
use super::walk::walk;
use crate::machine::Machine;
use crate::memory::{MEMORY, PAGE};
use crate::packing::{unpacked, UnpackAnswer, UnpackedBytes};
use crate::refusal::FileRefusal;

pub fn read(file: &[u8]) -> Result<(Machine, Vec<u8>), FileRefusal> {
    let mut memory = vec![0; MEMORY];
    let machine = walk(file, |data, pages| {
        let bytes = meant(data, pages.len() * PAGE)?;
        for (part, page) in bytes.chunks(PAGE).zip(pages) {
            memory[page * PAGE..][..PAGE].copy_from_slice(part);
        }
        Ok(())
    })?;
    Ok((machine, memory))
}

/// The bytes that the data stand for, which must be so many.
fn meant(data: &StoredData, due: usize) -> Result<Vec<u8>, FileRefusal> {
    let bytes = match data.is_packed {
        true => unpacked(data.bytes),
        false => UnpackedBytes::Bytes(data.bytes.to_vec()),
    };
    match bytes {
        UnpackedBytes::Bytes(bytes) => {
            data.judge(UnpackAnswer::of_length(bytes.len(), due), due)?;
            Ok(bytes)
        }
        UnpackedBytes::Malformed(code) => Err(data.malformed(code)),
    }
}

/// The RAM page and the bytes of every packed block of a v2 or v3 file, as they are stored.
pub fn packed_blocks(file: &[u8]) -> Result<Vec<(usize, &[u8])>, FileRefusal> {
    let mut packed = Vec::new();
    walk(file, |data, pages| {
        if data.is_packed {
            packed.push((pages[0], data.bytes));
        }
        Ok(())
    })?;
    Ok(packed)
}
