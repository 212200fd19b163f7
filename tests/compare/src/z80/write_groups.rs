//! Groups that write.

use super::maker::Maker;
use compare::calls::expect;
use compare::calls::files::FileChecker;
use compare::machines::good_and_others;
use compare::report::{Group, Outcome};
use reference::machine::{header, own_header, Machine, Model, Version, HEADER};
use reference::memory::{images, Rng, MEMORY};
use reference::z80::{read, write, LONGEST_FILE};

/// A machine and a memory, as a good file holds them.
fn machine(maker: &mut Maker) -> (Machine, Vec<u8>) {
    loop {
        let sample = maker.sample(Version::V3);
        if let Ok(pair) = read(&sample.bytes()) {
            return pair;
        }
    }
}

/// Outputs of the file's length, one shorter, one longer, 0 and others.
pub fn rooms(group: &mut Group, check: &mut FileChecker, maker: &mut Maker) -> Outcome {
    for _ in 0..2_500 {
        let (machine, mut memory) = machine(maker);
        if maker.rng.once_in(2) {
            // pages that a 48K machine does not own count for nothing
            let at = maker.rng.below(MEMORY);
            memory[at] = maker.rng.byte();
        }
        let bytes = header(&machine);
        let length = write(&machine, &memory).len();
        let other = maker.rng.below(length);
        for room in [0, 85, 86, other, length - 1] {
            expect(check.write_into(group, &bytes, &memory, room)?, 22)?;
        }
        for room in [length, length + 1, LONGEST_FILE] {
            expect(check.write_into(group, &bytes, &memory, room)?, 0)?;
        }
    }
    Ok(())
}

/// Whole images as 48K and as 128K machines.
pub fn whole_images(group: &mut Group, check: &mut FileChecker, maker: &mut Maker) -> Outcome {
    for (_, memory) in images(maker.rng.word()) {
        for model in [Model::K48, Model::K128] {
            let machine = Machine::blank_as(model);
            let length = write(&machine, &memory).len();
            for room in [length, LONGEST_FILE, 2 * MEMORY] {
                let bytes = header(&machine);
                expect(check.write_into(group, &bytes, &memory, room)?, 0)?;
            }
        }
    }
    Ok(())
}

/// Every value of every byte of a 48K header, of one with the chip, and of a 128K header.
pub fn every_header_byte(group: &mut Group, check: &mut FileChecker, maker: &mut Maker) -> Outcome {
    let memory = vec![maker.rng.byte(); MEMORY];
    for (model, chip) in [(Model::K48, false), (Model::K48, true), (Model::K128, true)] {
        let machine = Machine {
            chip,
            ..Machine::blank_as(model)
        };
        for at in 0..HEADER {
            for value in 0..=255 {
                let mut bytes = header(&machine);
                bytes[at] = value;
                check.write_into(group, &bytes, &memory, 2_200)?;
            }
        }
    }
    Ok(())
}

/// Headers of machines with one byte changed, headers of files as they came, and random bytes.
pub fn foreign_headers(group: &mut Group, check: &mut FileChecker, maker: &mut Maker) -> Outcome {
    let memory = vec![0; MEMORY];
    for case in 0..20_000 {
        let sample = maker.sample(Version::V3);
        let mut bytes = sample.header;
        if case % 2 == 0 {
            let machine = read_header(&bytes);
            bytes = header(&machine).to_vec();
            expect(u32::from(own_header(&bytes).is_none()), 0)?;
            let at = maker.rng.below(HEADER);
            bytes[at] = change(bytes[at], &mut maker.rng);
        }
        if case % 7 == 0 {
            bytes = maker.rng.bytes(HEADER);
        }
        let room = maker.rng.pick(&[0, 2_190, 3_000]);
        check.write_into(group, &bytes, &memory, room)?;
    }
    Ok(())
}

fn read_header(bytes: &[u8]) -> Machine {
    let read = reference::machine::from_header(Version::V3, bytes);
    read.unwrap_or(Machine::blank())
}

fn change(byte: u8, rng: &mut Rng) -> u8 {
    match rng.below(3) {
        0 => byte ^ 1 << rng.below(8),
        1 => rng.likely_byte(),
        _ => rng.byte(),
    }
}

/// Headers, areas and outputs of other lengths, in every combination.
pub fn buffers(group: &mut Group, check: &mut FileChecker, maker: &mut Maker) -> Outcome {
    for _ in 0..20 {
        let (machine, memory) = machine(maker);
        let good = header(&machine);
        for bytes in &good_and_others(&mut maker.rng, &good) {
            for area in [0, 1, MEMORY - 1, MEMORY, MEMORY + 1] {
                let mut memory = memory.clone();
                memory.resize(area, 0);
                for room in [0, 100, LONGEST_FILE] {
                    let answer = check.write_into(group, bytes, &memory, room)?;
                    match (*bytes == good, area == MEMORY) {
                        (false, _) => expect(answer, 20)?,
                        (true, false) => expect(answer, 21)?,
                        _ => {}
                    }
                }
            }
        }
    }
    Ok(())
}

/// No file is longer than 131,182 bytes, and this one is just that.
pub fn longest_file(group: &mut Group, check: &mut FileChecker) -> Outcome {
    let memory = [0xED, 0x00].repeat(MEMORY / 2);
    let machine = Machine::blank_as(Model::K128);
    let bytes = header(&machine);
    expect(check.write_into(group, &bytes, &memory, LONGEST_FILE)?, 0)?;
    expect(
        check.write_into(group, &bytes, &memory, LONGEST_FILE - 1)?,
        22,
    )?;
    expect(check.read(group, &write(&machine, &memory))?, 0)?;
    if check.longest != LONGEST_FILE {
        return Err(format!("the longest file has {} bytes", check.longest));
    }
    Ok(())
}
