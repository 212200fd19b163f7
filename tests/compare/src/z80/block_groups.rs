//! Groups that read good files of many kinds, lists of blocks, and files changed at random.

use super::coding::Coding;
use super::maker::{Maker, VERSIONS};
use super::sample::{CodedBlock, FileParts};
use compare::calls::expect;
use compare::calls::files::FileChecker;
use compare::report::{Group, Outcome};
use reference::machine::{Model, Version};
use reference::memory::{images, PAGE};
use reference::packing::packed;

/// Good files: every mode, any order of blocks, any coding.
pub fn good(group: &mut Group, check: &mut FileChecker, maker: &mut Maker) -> Outcome {
    for case in 0..36_000 {
        let sample = maker.sample(VERSIONS[case % 3]);
        let answer = check.read(group, &sample.bytes())?;
        expect(answer, 0)?;
        check.expect_block(0)?;
        check.expect_figures(0, 0)?;
    }
    Ok(())
}

/// Whole images in every version, packed and plain.
pub fn whole_images(group: &mut Group, check: &mut FileChecker, maker: &mut Maker) -> Outcome {
    for (_, memory) in images(maker.rng.word()) {
        for (version, mode) in [
            (Version::V2, 3),
            (Version::V2, 0),
            (Version::V3, 6),
            (Version::V3, 3),
        ] {
            for is_packed in [true, false] {
                let mut sample = maker.of_mode(version, mode);
                for (block, page) in sample.blocks.iter_mut().zip(memory.chunks(PAGE)) {
                    block.coding = match is_packed {
                        true => Coding::packed(packed(page)),
                        false => Coding::plain(page),
                    };
                }
                expect(check.read(group, &sample.bytes())?, 0)?;
            }
        }
        let mut sample = maker.short(Version::V1, 0);
        sample.body = packed(&memory[..3 * PAGE]);
        expect(check.read(group, &sample.bytes())?, 0)?;
        sample.header[12] = 255;
        sample.body = memory[..3 * PAGE].to_vec();
        sample.marker.clear();
        expect(check.read(group, &sample.bytes())?, 0)?;
    }
    Ok(())
}

/// Lists of blocks of any number, good, malformed, too long and too short.
pub fn block_lists(group: &mut Group, check: &mut FileChecker, maker: &mut Maker) -> Outcome {
    for _ in 0..25_000 {
        let version = maker.rng.pick(&[Version::V2, Version::V3]);
        let mut sample = maker.sample(version);
        let lowest = if sample.model == Model::K48 { 4 } else { 3 };
        let count = maker.rng.below(11);
        sample.blocks.truncate(maker.rng.below(9));
        while sample.blocks.len() < count {
            let rng = &mut maker.rng;
            let mut coding = maker.codings.quick(rng);
            match rng.below(12) {
                0 => coding.data.truncate(rng.below(300)),
                1 => coding.data.push(rng.likely_byte()),
                _ => {}
            }
            if !rng.once_in(20) {
                coding.length = coding.data.len() as u16;
            }
            let number = lowest + rng.below(9) as u8;
            sample.blocks.push(CodedBlock { number, coding });
        }
        check.read(group, &sample.bytes())?;
    }
    Ok(())
}

/// One byte changed, the end lost, or bytes added.
pub fn changed(group: &mut Group, check: &mut FileChecker, maker: &mut Maker) -> Outcome {
    for case in 0..45_000 {
        let sample = maker.any();
        let mut file = sample.bytes();
        let rng = &mut maker.rng;
        match case % 5 {
            0 => file.truncate(rng.below(file.len())),
            1 => {
                let more = 1 + rng.below(6);
                let bytes: Vec<u8> = (0..more).map(|_| rng.likely_byte()).collect();
                file.extend(bytes);
            }
            2 => {
                let at = rng.below(sample.header.len());
                file[at] = rng.byte();
            }
            3 => {
                file.remove(rng.below(file.len()));
            }
            _ => {
                let at = rng.below(file.len());
                file[at] = rng.likely_byte();
            }
        }
        check.read(group, &file)?;
    }
    Ok(())
}

/// The number, the offset, the block and the figures of a good file of this length without what stands from a place
/// after its header on.
fn cut_file(sample: &FileParts, length: usize, end: usize) -> (u32, usize, usize, (usize, usize)) {
    let borders = sample.borders();
    let next = borders.partition_point(|border| *border < end);
    match sample.version {
        _ if end == length => (0, 0, 0, (0, 0)),
        Version::V1 => (14, end, 1, (0, 0)),
        _ if borders[next] == end => (13, 0, 0, (next, sample.blocks.len())),
        _ => (8, borders[next - 1], next, (0, 0)),
    }
}

/// Short files of every version, cut at every place, and every byte of their bodies changed.
pub fn every_cut(group: &mut Group, check: &mut FileChecker, maker: &mut Maker) -> Outcome {
    for (version, mode) in [
        (Version::V1, 0),
        (Version::V2, 1),
        (Version::V2, 4),
        (Version::V3, 3),
        (Version::V3, 5),
    ] {
        let sample = maker.short(version, mode);
        let good = sample.bytes();
        for end in 0..sample.header.len() {
            expect(check.read(group, &good[..end])?, 2)?;
        }
        for end in sample.header.len()..=good.len() {
            let (number, offset, block, (found, due)) = cut_file(&sample, good.len(), end);
            expect(check.read(group, &good[..end])?, number)?;
            check.expect_offset(offset)?;
            check.expect_block(block)?;
            check.expect_figures(found, due)?;
        }
        for at in sample.header.len()..good.len() {
            for value in [
                0x00,
                0xED,
                0xFF,
                good[at].wrapping_add(1),
                good[at].wrapping_sub(1),
            ] {
                let mut file = good.clone();
                file[at] = value;
                check.read(group, &file)?;
            }
        }
    }
    Ok(())
}

/// Bytes that are no file, most of them with a header that is read.
pub fn random_bytes(group: &mut Group, check: &mut FileChecker, maker: &mut Maker) -> Outcome {
    for case in 0..15_000 {
        let mut file = match case % 4 {
            0 => Vec::new(),
            _ => maker.any().header,
        };
        let rng = &mut maker.rng;
        let more = rng.below(120);
        let bytes: Vec<u8> = (0..more).map(|_| rng.likely_byte()).collect();
        file.extend(bytes);
        check.read(group, &file)?;
    }
    Ok(())
}
