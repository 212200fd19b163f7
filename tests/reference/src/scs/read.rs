//! The machine and the 128K memory of an SCS file, or the first number that refuses it and where.

use super::{memory_pages, CPU_BLOCK, CPU_SIZE, IDENTITY, MEMORY_BLOCK, PORTS_BLOCK, PORTS_SIZE};
use super::{SCS_BLOCK_HEAD, SCS_START};
use crate::machine::{Machine, Model};
use crate::memory::{MEMORY, PAGE};
use crate::refusal::{FileRefusal, Refusal};

pub fn read(file: &[u8]) -> Result<(Machine, Vec<u8>), FileRefusal> {
    let start = file.get(..SCS_START).ok_or(Refusal::ShortFile)?;
    let model = model(start).ok_or(Refusal::ScsHeader)?;
    if file.get(SCS_START) != Some(&MEMORY_BLOCK) {
        return Err(Refusal::ScsMemoryNotFirst.into());
    }
    let [cpu, ports, memory] = blocks(file)?;
    let cpu = filled(cpu.ok_or(Refusal::ScsBlockMissing)?, CPU_SIZE);
    let ports = filled(ports.ok_or(Refusal::ScsBlockMissing)?, PORTS_SIZE);
    let machine = machine(model, &cpu, &ports)?;
    Ok((machine, area(model, memory.unwrap_or(&[]))))
}

/// The hardware number of a file that begins as an SCS file.
fn model(start: &[u8]) -> Option<Model> {
    match start[14] {
        _ if !start.starts_with(IDENTITY) => None,
        1 => Some(Model::K48),
        2 => Some(Model::K128),
        _ => None,
    }
}

/// The data of the blocks 1, 2 and 3 where they are there.
fn blocks(file: &[u8]) -> Result<[Option<&[u8]>; 3], FileRefusal> {
    let mut found = [None; 3];
    let mut head = SCS_START;
    while let Some(&number) = file.get(head) {
        if number == 0 {
            break;
        }
        let data = block_data(&file[head..]).ok_or(Refusal::CutBlock.at(head))?;
        if let CPU_BLOCK | PORTS_BLOCK | MEMORY_BLOCK = number {
            let place = &mut found[usize::from(number) - 1];
            if place.is_some() {
                return Err(Refusal::ScsBlockTwice.at(head));
            }
            *place = Some(data);
        }
        head += SCS_BLOCK_HEAD + data.len();
    }
    Ok(found)
}

/// The data of the first block; none where it is cut.
fn block_data(blocks: &[u8]) -> Option<&[u8]> {
    let (head, rest) = blocks.split_at_checked(SCS_BLOCK_HEAD)?;
    let size = u32::from_le_bytes([head[1], head[2], head[3], head[4]]);
    // A size that no usize holds is more than any file has.
    rest.get(..usize::try_from(size).ok()?)
}

/// So many bytes: zeros where the data are shorter, the rest skipped where they are longer.
fn filled(data: &[u8], length: usize) -> Vec<u8> {
    let mut bytes = data[..data.len().min(length)].to_vec();
    bytes.resize(length, 0);
    bytes
}

fn high_first(bytes: &[u8], at: usize) -> u16 {
    u16::from_be_bytes([bytes[at], bytes[at + 1]])
}

fn low_first(bytes: &[u8], at: usize) -> u16 {
    u16::from_le_bytes([bytes[at], bytes[at + 1]])
}

/// The machine of a CPU and a Ports block at their full lengths.
fn machine(model: Model, cpu: &[u8], ports: &[u8]) -> Result<Machine, Refusal> {
    let mut machine = registers(cpu);
    machine.model = model;
    if machine.interrupt_mode == 3 {
        return Err(Refusal::InterruptMode);
    }
    machine.border = ports[0] & 0x07;
    if model == Model::K128 {
        machine.paging = ports[1];
    }
    // a 48K too, and also where Ports is silent or short
    machine.chip = true;
    machine.sound_select = ports[2] & 0x0F;
    machine.sound.copy_from_slice(&ports[3..19]);
    Ok(machine)
}

/// What the CPU block says; the rest is what a v1 file gives, whose bytes 61 and 62 are 255.
fn registers(cpu: &[u8]) -> Machine {
    let mut machine = Machine {
        a: cpu[0],
        f: cpu[1],
        bc: high_first(cpu, 2),
        de: high_first(cpu, 4),
        hl: high_first(cpu, 6),
        alt_a: cpu[8],
        alt_f: cpu[9],
        alt_bc: high_first(cpu, 10),
        alt_de: high_first(cpu, 12),
        alt_hl: high_first(cpu, 14),
        ix: low_first(cpu, 16),
        iy: low_first(cpu, 18),
        pc: low_first(cpu, 20),
        sp: low_first(cpu, 22),
        i: cpu[24],
        r: cpu[25],
        interrupt_mode: cpu[26] & 0x03,
        iff1: cpu[27] & 0x01 != 0,
        iff2: cpu[27] & 0x02 != 0,
        ..Machine::blank()
    };
    machine.side[1] = 255;
    machine.side[2] = 255;
    machine
}

/// The area of a Memory block; pages that the model does not own are zero.
fn area(model: Model, data: &[u8]) -> Vec<u8> {
    let mut area = vec![0; MEMORY];
    for (part, page) in data.chunks(PAGE).zip(memory_pages(model)) {
        area[page * PAGE..][..part.len()].copy_from_slice(part);
    }
    area
}
