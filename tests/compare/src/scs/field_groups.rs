//! Groups about what a file says of the machine: every value of each byte, and whole machines.

use super::maker::{ScsMaker, MODELS, MODE_AT};
use compare::calls::expect;
use compare::calls::files::FileChecker;
use compare::machines;
use compare::report::{Group, Outcome};
use reference::machine::{header, owns, Machine};
use reference::memory::{images, MEMORY, PAGE};
use reference::scs::{kept, write, CPU_BLOCK, CPU_SIZE, PORTS_BLOCK, PORTS_SIZE};

/// Every value of every byte of the CPU and the Ports block, on both models.
pub fn every_value(group: &mut Group, check: &mut FileChecker, maker: &mut ScsMaker) -> Outcome {
    for model in MODELS {
        for (number, length) in [(CPU_BLOCK, CPU_SIZE), (PORTS_BLOCK, PORTS_SIZE)] {
            for at in 0..length {
                for value in 0..=255 {
                    let mut sample = maker.short(model);
                    sample.data(number)[at] = value;
                    let is_mode = number == CPU_BLOCK && at == MODE_AT;
                    let due = if is_mode && value % 4 == 3 { 5 } else { 0 };
                    let answer = check.read_alone(group, &sample.bytes())?;
                    expect(answer, due)?;
                }
            }
        }
    }
    Ok(())
}

/// What the memory of a file holds for this machine: pages that it does not own are zero.
fn owned(machine: &Machine, memory: &[u8]) -> Vec<u8> {
    let mut owned = vec![0; MEMORY];
    for (number, page) in memory.chunks(PAGE).enumerate() {
        if owns(machine.model, number as u8) {
            owned[number * PAGE..][..PAGE].copy_from_slice(page);
        }
    }
    owned
}

/// The file of a machine is accepted, and gives what SCS keeps of it and its memory.
pub fn comes_back(
    group: &mut Group,
    check: &mut FileChecker,
    machine: &Machine,
    memory: &[u8],
) -> Outcome {
    let answer = check.read(group, &write(machine, memory))?;
    expect(answer, 0)?;
    let (bytes, area) = check.last_read();
    if bytes != header(&kept(machine)) {
        return Err(format!("{machine:?} comes back as {bytes:02X?}"));
    }
    match area == owned(machine, memory) {
        true => Ok(()),
        false => Err("other memory comes back".into()),
    }
}

/// Random machines with a memory of many kinds.
pub fn random_machines(
    group: &mut Group,
    check: &mut FileChecker,
    maker: &mut ScsMaker,
) -> Outcome {
    for (_, memory) in images(maker.rng.word()) {
        for case in 0..100 {
            let machine = machines::machine(&mut maker.rng, MODELS[case % 2]);
            comes_back(group, check, &machine, &memory)?;
        }
    }
    Ok(())
}
