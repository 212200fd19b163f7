//! Groups that write SCS files.

use super::field_groups::comes_back;
use super::maker::{ScsMaker, MODELS};
use compare::calls::expect;
use compare::calls::files::FileChecker;
use compare::machines::{self, good_and_others, with_chip, CHIP_STATES};
use compare::report::{Group, Outcome};
use reference::machine::{header, own_header, Machine, Model, HEADER};
use reference::memory::{images, MEMORY};
use reference::scs::{write, SCS_FILE_128K, SCS_FILE_48K};

fn file_length(model: Model) -> usize {
    match model {
        Model::K48 => SCS_FILE_48K,
        Model::K128 => SCS_FILE_128K,
    }
}

/// One byte everywhere but in some places, in pages that are not owned too.
fn memory(maker: &mut ScsMaker) -> Vec<u8> {
    let mut memory = vec![maker.rng.byte(); MEMORY];
    for _ in 0..2_000 {
        let at = maker.rng.below(MEMORY);
        memory[at] = maker.rng.byte();
    }
    memory
}

/// Machines of every kind, into outputs of the file's length, one shorter, one longer and others.
pub fn rooms(group: &mut Group, check: &mut FileChecker, maker: &mut ScsMaker) -> Outcome {
    for case in 0..400 {
        let model = MODELS[case % 2];
        let machine = machines::machine(&mut maker.rng, model);
        let (bytes, memory) = (header(&machine), memory(maker));
        let length = file_length(model);
        expect(write(&machine, &memory).len() as u32, length as u32)?;
        let other = maker.rng.below(length);
        for room in [0, 1, 15, 87, 88, other, length - 5, length - 1] {
            expect(check.write_into(group, &bytes, &memory, room)?, 22)?;
        }
        for room in [length, length + 1, length + 5, length + other] {
            expect(check.write_into(group, &bytes, &memory, room)?, 0)?;
        }
        comes_back(group, check, &machine, &memory)?;
    }
    Ok(())
}

/// Whole images as machines of both models.
pub fn whole_images(group: &mut Group, check: &mut FileChecker, maker: &mut ScsMaker) -> Outcome {
    for (_, memory) in images(maker.rng.word()) {
        for model in MODELS {
            let bytes = machines::header(&mut maker.rng, model);
            for room in [file_length(model), 2 * MEMORY] {
                expect(check.write_into(group, &bytes, &memory, room)?, 0)?;
            }
        }
    }
    Ok(())
}

/// Every value of every byte of a header of each model, with and without the chip; one in 16 that are the writer's own
/// is written.
pub fn every_header_byte(
    group: &mut Group,
    check: &mut FileChecker,
    maker: &mut ScsMaker,
) -> Outcome {
    let memory = memory(maker);
    for (model, state) in CHIP_STATES {
        let good = header(&with_chip(&mut maker.rng, model, state));
        for at in 0..HEADER {
            for value in 0..=255 {
                let mut bytes = good;
                bytes[at] = value;
                let due = if own_header(&bytes).is_some() { 22 } else { 20 };
                expect(check.write_into(group, &bytes, &memory, 88)?, due)?;
                if due == 22 && value % 16 == 0 {
                    let room = SCS_FILE_128K;
                    expect(check.write_into(group, &bytes, &memory, room)?, 0)?;
                }
            }
        }
    }
    Ok(())
}

/// Headers with some bytes changed, and random bytes.
pub fn foreign_headers(
    group: &mut Group,
    check: &mut FileChecker,
    maker: &mut ScsMaker,
) -> Outcome {
    let memory = memory(maker);
    for case in 0..8_000 {
        let model = maker.model();
        let mut bytes = machines::header(&mut maker.rng, model);
        for _ in 0..1 + case % 3 {
            let at = maker.rng.below(HEADER);
            bytes[at] ^= 1 << maker.rng.below(8);
        }
        if case % 7 == 0 {
            bytes = maker.rng.bytes(HEADER);
        }
        let room = maker.rng.pick(&[0, 88, 3_000]);
        let due = if own_header(&bytes).is_some() { 22 } else { 20 };
        expect(check.write_into(group, &bytes, &memory, room)?, due)?;
    }
    Ok(())
}

/// Headers, areas and outputs of other lengths, in every combination.
pub fn buffers(group: &mut Group, check: &mut FileChecker, maker: &mut ScsMaker) -> Outcome {
    for case in 0..20 {
        let model = MODELS[case % 2];
        let good = machines::header(&mut maker.rng, model);
        for bytes in &good_and_others(&mut maker.rng, &good) {
            for area in [0, 1, MEMORY - 1, MEMORY, MEMORY + 1] {
                let mut memory = memory(maker);
                memory.resize(area, 0);
                for room in [0, 100, SCS_FILE_128K] {
                    let due = match (*bytes == good, area == MEMORY, room) {
                        (false, ..) => 20,
                        (true, false, _) => 21,
                        (true, true, SCS_FILE_128K) => 0,
                        _ => 22,
                    };
                    expect(check.write_into(group, bytes, &memory, room)?, due)?;
                }
            }
        }
    }
    Ok(())
}

/// The blank machine's file, byte by byte.
pub fn blank(group: &mut Group, check: &mut FileChecker) -> Outcome {
    let mut due = b"SamSnap!ASCD\x00\x62\x01\x03\x00\xC0\x00\x00".to_vec();
    due.resize(due.len() + 49_152, 0);
    due.extend([1, 34, 0, 0, 0]);
    due.extend([0; 34]);
    due.extend([2, 19, 0, 0, 0]);
    due.extend([0; 19 + 5]);
    let memory = vec![0; MEMORY];
    if write(&Machine::blank(), &memory) != due {
        return Err("the reference's file of the blank machine".into());
    }
    let bytes = header(&Machine::blank());
    expect(check.write_into(group, &bytes, &memory, due.len())?, 0)?;
    expect(check.read(group, &due)?, 0)?;
    match check.last_header()[35..55] {
        [0, 0, 4, ..] => Ok(()),
        _ => Err("the blank machine comes back without the chip".into()),
    }
}
