//! Groups that read files with every value in a header byte, and buffers of other lengths.

use super::faults::other_blocks;
use super::maker::{Maker, VERSIONS};
use compare::calls::expect;
use compare::calls::files::FileChecker;
use compare::report::{Group, Outcome};
use reference::machine::{header, Machine, Version, HEADER, SOUND};
use reference::memory::MEMORY;

/// The examples that are run: short files and a short area.
pub fn examples(group: &mut Group, check: &mut FileChecker) -> Outcome {
    let mut v1 = vec![0; 30];
    v1[7] = 0x80;
    for (file, area, number, offset) in [
        (&[0; 29][..], MEMORY, 2, 0),
        (&v1[..29], MEMORY, 2, 0),
        (&[0; 30], MEMORY, 2, 0),
        (&v1, MEMORY, 12, 30),
        (&v1, MEMORY - 1, 1, 0),
        (&[], MEMORY - 1, 1, 0),
    ] {
        let answer = check.read_into(group, file, area, HEADER)?;
        expect(answer, number)?;
        check.expect_offset(offset)?;
    }
    let mut blank = [0; HEADER];
    (blank[30], blank[55], blank[56], blank[57]) = (54, 0x3F, 0x44, 3);
    if header(&Machine::blank()) != blank {
        return Err("the reference's blank machine".into());
    }
    Ok(())
}

/// Every value of byte 34, with the blocks of 48K and of 128K.
pub fn modes(group: &mut Group, check: &mut FileChecker, maker: &mut Maker) -> Outcome {
    for version in [Version::V2, Version::V3] {
        for mode in 0..=255 {
            for case in 0..12 {
                let mut sample = maker.sample(version);
                sample.header[34] = mode;
                if case % 3 == 2 {
                    other_blocks(&mut sample, maker);
                }
                check.read(group, &sample.bytes())?;
            }
        }
    }
    Ok(())
}

/// Every value of one header byte in files of every version, with both kinds of v1 body.
pub fn every_value(
    group: &mut Group,
    check: &mut FileChecker,
    maker: &mut Maker,
    at: usize,
) -> Outcome {
    for version in VERSIONS {
        for value in 0..=255 {
            for _ in 0..8 {
                let mut sample = maker.sample(version);
                sample.header[at] = value;
                check.read(group, &sample.bytes())?;
            }
        }
    }
    Ok(())
}

/// Every value of every header byte of a short file of each version, of 48K ones with the chip and without.
pub fn every_byte(group: &mut Group, check: &mut FileChecker, maker: &mut Maker) -> Outcome {
    for (version, mode, sound) in [
        (Version::V1, 0, 0),
        (Version::V2, 0, 0),
        (Version::V2, 1, SOUND),
        (Version::V3, 3, SOUND),
        (Version::V3, 4, 0),
    ] {
        let mut sample = maker.short(version, mode);
        if version != Version::V1 {
            sample.header[37] = sample.header[37] & !SOUND | sound;
        }
        let good = sample.bytes();
        for at in 0..sample.header.len() {
            for value in 0..=255 {
                let mut file = good.clone();
                file[at] = value;
                check.read(group, &file)?;
            }
        }
    }
    Ok(())
}

/// Both counters around their ends.
pub fn counters(group: &mut Group, check: &mut FileChecker, maker: &mut Maker) -> Outcome {
    for mode in [0, 4] {
        let mut sample = maker.short(Version::V3, mode);
        for high in 0..=255 {
            for low in [
                0, 1, 255, 256, 17_471, 17_472, 17_726, 17_727, 17_728, 0xFFFF,
            ] {
                sample.header[55..57].copy_from_slice(&u16::to_le_bytes(low));
                sample.header[57] = high;
                check.read(group, &sample.bytes())?;
            }
        }
    }
    Ok(())
}

/// Areas and header buffers of other lengths, with good and damaged files.
pub fn buffers(group: &mut Group, check: &mut FileChecker, maker: &mut Maker) -> Outcome {
    for case in 0..80 {
        let mut file = maker.any().bytes();
        if case % 4 == 0 {
            file.truncate(maker.rng.below(file.len()));
        }
        let other = maker.rng.below(2 * MEMORY);
        check.read_into_others(group, &file, other)?;
    }
    Ok(())
}
