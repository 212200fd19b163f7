//! Groups about the start of a file, and about buffers of other lengths.

use super::maker::{ScsMaker, MODELS};
use compare::calls::expect;
use compare::calls::files::FileChecker;
use compare::report::{Group, Outcome};
use reference::machine::HEADER;
use reference::memory::MEMORY;
use reference::scs::SCS_START;

/// Files whose number the papers say.
pub fn examples(group: &mut Group, check: &mut FileChecker) -> Outcome {
    let start = b"SamSnap!ASCD\x00\x62\x01";
    let with = |more: &[u8]| [&start[..], more].concat();
    let (memory, cpu, ports) = ([3, 0, 0, 0, 0], [1, 0, 0, 0, 0], [2, 0, 0, 0, 0]);
    let three = [memory, cpu, ports].concat();
    for (file, number, offset) in [
        (Vec::new(), 2, 0),
        (start[..14].to_vec(), 2, 0),
        (vec![0; 14], 2, 0),
        (vec![0; 15], 40, 0),
        (start.to_vec(), 43, 0),
        (with(&[0]), 43, 0),
        (with(&cpu), 43, 0),
        (with(&[4, 0, 0, 0, 0]), 43, 0),
        (with(&[3]), 8, 15),
        (with(&[3, 255, 255, 255, 255]), 8, 15),
        (with(&[3, 1, 0, 0, 0]), 8, 15),
        (with(&memory), 41, 0),
        (with(&[memory, cpu].concat()), 41, 0),
        (with(&[memory, ports].concat()), 41, 0),
        (with(&[memory, memory].concat()), 42, 20),
        (with(&[&three[..], &cpu].concat()), 42, 30),
        (with(&[&three[..], &[1, 1, 0, 0, 0]].concat()), 8, 30),
        (with(&[&three[..], &[0, 1, 1, 1, 1]].concat()), 0, 0),
        (with(&three), 0, 0),
    ] {
        expect(check.read(group, &file)?, number)?;
        check.expect_offset(offset)?;
    }
    let area = check.read_into(group, &with(&three), MEMORY - 1, HEADER)?;
    expect(area, 1)?;
    let header = check.read_into(group, &[], 0, HEADER - 1)?;
    expect(header, 20)
}

/// Every hardware number, over files of both models.
pub fn hardware(group: &mut Group, check: &mut FileChecker, maker: &mut ScsMaker) -> Outcome {
    for hardware in 0..=255 {
        for _ in 0..40 {
            let mut sample = maker.any();
            sample.start[14] = hardware;
            let due = if let 1 | 2 = hardware { 0 } else { 40 };
            let answer = check.read_alone(group, &sample.bytes())?;
            expect(answer, due)?;
        }
    }
    Ok(())
}

/// Every value of each of the first 15 bytes: the emulator and its version do not count.
pub fn every_byte(group: &mut Group, check: &mut FileChecker, maker: &mut ScsMaker) -> Outcome {
    for model in MODELS {
        let good = maker.short(model).bytes();
        for at in 0..SCS_START {
            for value in 0..=255 {
                let mut file = good.clone();
                file[at] = value;
                let is_good = match at {
                    14 => matches!(value, 1 | 2),
                    _ => value == good[at] || (8..14).contains(&at),
                };
                let answer = check.read_alone(group, &file)?;
                expect(answer, if is_good { 0 } else { 40 })?;
            }
        }
    }
    Ok(())
}

/// Every number of the first block, and no block.
pub fn first_block(group: &mut Group, check: &mut FileChecker, maker: &mut ScsMaker) -> Outcome {
    for number in 0..=255 {
        for _ in 0..8 {
            let mut sample = maker.any();
            sample.blocks[0].number = number;
            let due = if number == 3 { 0 } else { 43 };
            let answer = check.read_alone(group, &sample.bytes())?;
            expect(answer, due)?;
        }
        let mut sample = maker.any();
        sample.cut = Some(SCS_START);
        let answer = check.read_alone(group, &sample.bytes())?;
        expect(answer, 43)?;
    }
    Ok(())
}

/// Areas and header buffers of other lengths, with good and damaged files.
pub fn buffers(group: &mut Group, check: &mut FileChecker, maker: &mut ScsMaker) -> Outcome {
    for case in 0..40 {
        let mut file = maker.any().bytes();
        if case % 4 == 0 {
            file.truncate(maker.rng.below(file.len()));
        }
        let other = maker.rng.below(2 * MEMORY);
        check.read_into_others(group, &file, other)?;
    }
    Ok(())
}
