//! The v3 file of a valid machine and its 128K memory.

use super::PLAIN;
use crate::machine::{header, Machine};
use crate::memory::PAGE;
use crate::packing::packed;

pub fn write(machine: &Machine, memory: &[u8]) -> Vec<u8> {
    let mut file = header(machine).to_vec();
    for &(number, page) in Machine::blocks(machine.model) {
        let bytes = &memory[page * PAGE..][..PAGE];
        let code = packed(bytes);
        let (length, data) = if code.len() < PAGE {
            (code.len() as u16, &code[..])
        } else {
            (PLAIN, bytes)
        };
        file.extend(length.to_le_bytes());
        file.push(number);
        file.extend(data);
    }
    file
}
