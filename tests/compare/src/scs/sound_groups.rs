//! Groups about the sound chip, which every machine from SCS has.

use super::field_groups::comes_back;
use super::maker::{ScsMaker, MODELS};
use compare::calls::expect;
use compare::calls::files::FileChecker;
use compare::machines::{with_chip, CHIP_STATES};
use compare::report::{Group, Outcome};
use compare::sounds::write_each;
use reference::machine::{header, Model};
use reference::memory::MEMORY;
use reference::scs::{PORTS_BLOCK, PORTS_SIZE, SCS_FILE_128K};

/// Bytes 35 to 54 of the machine of a Ports block, zeros where it is short.
fn part_of(model: Model, ports: &[u8]) -> [u8; 20] {
    let mut full = ports.to_vec();
    full.resize(PORTS_SIZE, 0);
    let (last_out, emulation) = match model {
        Model::K48 => (0, 4),
        Model::K128 => (full[1], 0),
    };
    let mut part = [0; 20];
    (part[0], part[2], part[3]) = (last_out, emulation, full[2] % 16);
    part[4..].copy_from_slice(&full[3..PORTS_SIZE]);
    part
}

/// Ports blocks of every length, with sound and silent: every machine has the chip, and a 48K no last OUT to 7FFD.
pub fn ports(group: &mut Group, check: &mut FileChecker, maker: &mut ScsMaker) -> Outcome {
    for model in MODELS {
        for length in 0..=PORTS_SIZE + 6 {
            for case in 0..60 {
                let mut ports = maker.rng.bytes(length);
                match case % 3 {
                    0 => ports.fill(0),
                    1 => ports.iter_mut().for_each(|byte| *byte = (*byte).max(1)),
                    _ => {}
                }
                let mut sample = maker.short(model);
                sample.data(PORTS_BLOCK).clone_from(&ports);
                expect(check.read(group, &sample.sized().bytes())?, 0)?;
                let (due, part) = (part_of(model, &ports), &check.last_header()[35..55]);
                if part != due {
                    return Err(format!("bytes 35 to 54 are {part:02X?}, not {due:02X?}"));
                }
            }
        }
    }
    Ok(())
}

/// Machines with and without the chip: each comes back with it, its sound as it was but for the upper half of the last
/// OUT to FFFD.
pub fn chips(group: &mut Group, check: &mut FileChecker, maker: &mut ScsMaker) -> Outcome {
    for _ in 0..60 {
        let memory = vec![maker.rng.byte(); MEMORY];
        for (model, state) in CHIP_STATES {
            let machine = with_chip(&mut maker.rng, model, state);
            let before = header(&machine);
            expect(check.write_into(group, &before, &memory, SCS_FILE_128K)?, 0)?;
            comes_back(group, check, &machine, &memory)?;
            let ports = [&[0, before[35]], &before[38..55]].concat();
            if check.last_header()[35..55] != part_of(model, &ports) {
                return Err(format!("{machine:?} comes back with another sound"));
            }
        }
    }
    Ok(())
}

/// Headers of every value of byte 37: 20, or they are written.
pub fn headers(group: &mut Group, check: &mut FileChecker, maker: &mut ScsMaker) -> Outcome {
    write_each(group, check, &mut maker.rng, [88, SCS_FILE_128K])
}
