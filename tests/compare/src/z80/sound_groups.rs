//! Groups about byte 37, the sound chip of a 48K and what is kept with it.

use super::maker::Maker;
use compare::calls::expect;
use compare::calls::files::FileChecker;
use compare::machines::{with_chip, CHIP_STATES};
use compare::report::{Group, Outcome};
use compare::sounds::write_each;
use reference::machine::{header, Model, Version};
use reference::memory::{Rng, MEMORY, PAGE};
use reference::z80::{write, LONGEST_FILE};

/// The model of a mode that is carried.
fn model_of(version: Version, mode: u8) -> Option<Model> {
    match (version, mode) {
        (Version::V2, 0 | 1) | (Version::V3, 0 | 1 | 3) => Some(Model::K48),
        (Version::V2, 3 | 4) | (Version::V3, 4..=6) => Some(Model::K128),
        _ => None,
    }
}

/// Bytes 35 and 38 to 54: all of them other than 0, none, the last OUT to FFFD alone, one register and the last OUT to
/// 7FFD.
fn put_file_ports(rng: &mut Rng, file: &mut [u8], case: usize) {
    file[35] = 0;
    file[38..55].fill(0);
    match case {
        0 => {
            file[35] = rng.byte().max(1);
            file[38..55].fill_with(|| rng.byte().max(1));
        }
        1 => {}
        2 => file[38] = rng.byte().max(1),
        _ => {
            file[35] = rng.byte().max(1);
            file[39 + rng.below(16)] = rng.byte().max(1);
        }
    }
}

/// Bytes 35 to 54 of the machine that a v2 or v3 header of this model gives.
fn read_part(model: Model, file: &[u8]) -> [u8; 20] {
    let mut part = [0; 20];
    part[1] = file[36];
    match (model, file[37] & 4 != 0) {
        (Model::K48, chip) => {
            part[2] = file[37] & 7;
            if chip {
                part[3..].copy_from_slice(&file[38..55]);
            }
        }
        (Model::K128, _) => {
            part.copy_from_slice(&file[35..55]);
            part[2] &= 3;
        }
    }
    part
}

/// Every value of byte 37 with every mode: carried ones give what the rule keeps, and are written and read again; the
/// others are refused.
pub fn every_value(group: &mut Group, check: &mut FileChecker, maker: &mut Maker) -> Outcome {
    for version in [Version::V2, Version::V3] {
        for mode in 0..=255 {
            let mut file = maker.short(version, mode).bytes();
            for value in 0..=255 {
                file[37] = value;
                let Some(model) = model_of(version, mode) else {
                    put_file_ports(&mut maker.rng, &mut file, value.into());
                    check.expect_at(group, &file, 4, 0)?;
                    continue;
                };
                for case in 0..4 {
                    put_file_ports(&mut maker.rng, &mut file, case);
                    expect(check.read(group, &file)?, 0)?;
                    expect_part(check, read_part(model, &file))?;
                }
            }
        }
    }
    Ok(())
}

/// The last read gave these bytes 35 to 54.
fn expect_part(check: &FileChecker, due: [u8; 20]) -> Outcome {
    match &check.last_header()[35..55] {
        part if *part == due => Ok(()),
        part => Err(format!("bytes 35 to 54 are {part:02X?}, not {due:02X?}")),
    }
}

/// Every value of byte 37 of plain v1 files, which is memory there: no chip, and nothing is kept.
pub fn v1_bodies(group: &mut Group, check: &mut FileChecker, maker: &mut Maker) -> Outcome {
    let mut sample = maker.short(Version::V1, 0);
    sample.header[12] = 0x0E;
    sample.body = maker.rng.bytes(3 * PAGE);
    sample.marker.clear();
    let mut file = sample.bytes();
    for value in 0..=255 {
        file[37] = value;
        expect(check.read(group, &file)?, 0)?;
        expect_part(check, [0; 20])?;
    }
    Ok(())
}

/// Machines of every model with and without the chip: they come back as they were.
pub fn chips(group: &mut Group, check: &mut FileChecker, maker: &mut Maker) -> Outcome {
    for case in 0..200 {
        let memory = vec![maker.rng.byte(); MEMORY];
        for (model, state) in CHIP_STATES {
            let machine = with_chip(&mut maker.rng, model, state);
            let bytes = header(&machine);
            let file = write(&machine, &memory);
            let room = [file.len(), file.len() + 1, LONGEST_FILE][case % 3];
            expect(check.write_into(group, &bytes, &memory, room)?, 0)?;
            expect(check.read(group, &file)?, 0)?;
            if check.last_header() != bytes {
                return Err(format!("{machine:?} comes back as another one"));
            }
        }
    }
    Ok(())
}

/// Headers of every value of byte 37: 20, or they are written.
pub fn headers(group: &mut Group, check: &mut FileChecker, maker: &mut Maker) -> Outcome {
    write_each(group, check, &mut maker.rng, [86, LONGEST_FILE])
}
