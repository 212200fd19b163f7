//! The SCS file of a valid machine and its 128K memory.

use super::{memory_pages, CPU_BLOCK, CPU_SIZE, IDENTITY, MEMORY_BLOCK, PORTS_BLOCK, PORTS_SIZE};
use crate::machine::{Machine, Model};
use crate::memory::PAGE;

pub fn write(machine: &Machine, memory: &[u8]) -> Vec<u8> {
    let mut file = IDENTITY.to_vec();
    file.extend(b"ASCD");
    file.extend([0, 98, hardware(machine.model)]);
    let pages = memory_pages(machine.model);
    put_head(&mut file, MEMORY_BLOCK, pages.len() * PAGE);
    for page in pages {
        file.extend(&memory[page * PAGE..][..PAGE]);
    }
    put_head(&mut file, CPU_BLOCK, CPU_SIZE);
    file.extend(cpu(machine));
    put_head(&mut file, PORTS_BLOCK, PORTS_SIZE);
    file.extend(ports(machine));
    file.extend([0; 5]);
    file
}

fn hardware(model: Model) -> u8 {
    match model {
        Model::K48 => 1,
        Model::K128 => 2,
    }
}

fn put_head(file: &mut Vec<u8>, number: u8, size: usize) {
    file.push(number);
    file.extend((size as u32).to_le_bytes());
}

fn cpu(machine: &Machine) -> Vec<u8> {
    let mut cpu = vec![machine.a, machine.f];
    for pair in [machine.bc, machine.de, machine.hl] {
        cpu.extend(pair.to_be_bytes());
    }
    cpu.extend([machine.alt_a, machine.alt_f]);
    for pair in [machine.alt_bc, machine.alt_de, machine.alt_hl] {
        cpu.extend(pair.to_be_bytes());
    }
    for pair in [machine.ix, machine.iy, machine.pc, machine.sp] {
        cpu.extend(pair.to_le_bytes());
    }
    let iffs = u8::from(machine.iff1) | u8::from(machine.iff2) << 1;
    cpu.extend([machine.i, machine.r, machine.interrupt_mode, iffs]);
    // The three clock numbers.
    cpu.extend([0; 6]);
    cpu
}

fn ports(machine: &Machine) -> Vec<u8> {
    let mut ports = vec![machine.border, machine.paging, machine.sound_select & 0x0F];
    ports.extend(machine.sound);
    ports
}
