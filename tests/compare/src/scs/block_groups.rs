//! Groups about the blocks of a file: good files, orders, skipped blocks, ends, lists, and files changed at random.

use super::maker::{ScsMaker, MODELS};
use super::sample::{ScsFileParts, SizedBlock};
use compare::calls::expect;
use compare::calls::files::FileChecker;
use compare::report::{Group, Outcome};

/// Good files of every kind; some of them are written and read again.
pub fn good(group: &mut Group, check: &mut FileChecker, maker: &mut ScsMaker) -> Outcome {
    for case in 0..30_000 {
        let file = maker.any().bytes();
        let answer = match case % 10 {
            0 => check.read(group, &file)?,
            _ => check.read_alone(group, &file)?,
        };
        expect(answer, 0)?;
    }
    Ok(())
}

/// Every order of these blocks.
fn orders(blocks: &[SizedBlock]) -> Vec<Vec<SizedBlock>> {
    if blocks.is_empty() {
        return vec![Vec::new()];
    }
    let mut all = Vec::new();
    for first in 0..blocks.len() {
        let mut rest = blocks.to_vec();
        let block = rest.remove(first);
        for mut order in orders(&rest) {
            order.insert(0, block.clone());
            all.push(order);
        }
    }
    all
}

/// Memory, CPU, Ports and two skipped blocks in every order: good exactly where Memory is first.
pub fn every_order(group: &mut Group, check: &mut FileChecker, maker: &mut ScsMaker) -> Outcome {
    for model in MODELS {
        for _ in 0..6 {
            let mut sample = maker.short(model);
            sample.blocks.extend([maker.skipped(), maker.skipped()]);
            for blocks in orders(&sample.blocks) {
                let due = if blocks[0].number == 3 { 0 } else { 43 };
                sample.blocks = blocks;
                sample.tail = maker.tail();
                let answer = check.read_alone(group, &sample.bytes())?;
                expect(answer, due)?;
            }
        }
    }
    Ok(())
}

/// Every number above 3, several times, of length 0 too.
pub fn skipped(group: &mut Group, check: &mut FileChecker, maker: &mut ScsMaker) -> Outcome {
    for number in 4..=255 {
        for length in [0, 1, 4, 5, 34, 255, 256, 1_000] {
            let mut sample = maker.any();
            for _ in 0..1 + maker.rng.below(4) {
                let place = 1 + maker.rng.below(sample.blocks.len());
                let data = maker.rng.bytes(length);
                sample.blocks.insert(place, SizedBlock::new(number, data));
            }
            let answer = check.read_alone(group, &sample.bytes())?;
            expect(answer, 0)?;
        }
    }
    Ok(())
}

/// After the last block: nothing, an end byte with anything behind it, or one to four bytes of another number's head.
pub fn ends(group: &mut Group, check: &mut FileChecker, maker: &mut ScsMaker) -> Outcome {
    for number in 0..=255 {
        for length in 1..=4 {
            for _ in 0..4 {
                let mut sample = maker.any();
                sample.tail = maker.rng.bytes(length);
                sample.tail[0] = number;
                let end = sample.borders()[sample.blocks.len()];
                let (due, offset) = if number == 0 { (0, 0) } else { (8, end) };
                check.expect_at(group, &sample.bytes(), due, offset)?;
            }
        }
    }
    for length in 0..2_000 {
        let mut sample = maker.any();
        sample.tail = maker.rng.bytes(length);
        if let Some(first) = sample.tail.first_mut() {
            *first = 0;
        }
        let answer = check.read_alone(group, &sample.bytes())?;
        expect(answer, 0)?;
    }
    Ok(())
}

/// An end byte before the CPU or the Ports block, which are then missing.
pub fn early_ends(group: &mut Group, check: &mut FileChecker, maker: &mut ScsMaker) -> Outcome {
    for _ in 0..2_000 {
        let mut sample = maker.any();
        let last = sample.place(1).max(sample.place(2)).unwrap_or(1);
        let place = 1 + maker.rng.below(last);
        let data = maker.rng.bytes(9);
        sample.blocks.insert(place, SizedBlock::new(0, data));
        let answer = check.read_alone(group, &sample.bytes())?;
        expect(answer, 41)?;
    }
    Ok(())
}

/// Lists of blocks of any number, many of them twice, cut or ended early.
pub fn lists(group: &mut Group, check: &mut FileChecker, maker: &mut ScsMaker) -> Outcome {
    for _ in 0..40_000 {
        let sample = list(maker);
        check.read_alone(group, &sample.bytes())?;
    }
    Ok(())
}

fn list(maker: &mut ScsMaker) -> ScsFileParts {
    let model = maker.model();
    let mut sample = maker.short(model);
    sample.blocks.truncate(maker.rng.below(4));
    for _ in 0..maker.rng.below(5) {
        let other = maker.rng.byte();
        let number = maker.rng.pick(&[1, 1, 2, 2, 3, 4, 5, 0, other]);
        let length = maker.rng.below(40);
        let mut block = SizedBlock::new(number, maker.cpu(length));
        if maker.rng.once_in(12) {
            let wide = maker.rng.word() as u32;
            block.size = maker.rng.pick(&[block.size + 1, 0, u32::MAX, wide]);
        }
        sample.blocks.push(block);
    }
    sample.tail = maker.tail();
    sample
}

/// One byte changed, the end lost, bytes added or one taken out.
pub fn changed(group: &mut Group, check: &mut FileChecker, maker: &mut ScsMaker) -> Outcome {
    for case in 0..40_000 {
        let mut file = maker.any().bytes();
        let rng = &mut maker.rng;
        let at = rng.below(file.len());
        match case % 5 {
            0 => file.truncate(at),
            1 => file.insert(at, rng.byte()),
            2 => {
                file.remove(at);
            }
            3 => file[at] = rng.pick(&[0, 1, 2, 3, 4, 255]),
            _ => file[at] = rng.byte(),
        }
        check.read_alone(group, &file)?;
    }
    Ok(())
}

/// Bytes that are no file, most of them after a good start.
pub fn random_bytes(group: &mut Group, check: &mut FileChecker, maker: &mut ScsMaker) -> Outcome {
    for case in 0..15_000 {
        let model = maker.model();
        let mut file = match case % 4 {
            0 => Vec::new(),
            _ => maker.start(model),
        };
        if case % 4 > 1 {
            file.push(3);
        }
        for _ in 0..maker.rng.below(60) {
            let other = maker.rng.byte();
            file.push(maker.rng.pick(&[0, 0, 0, 0, 1, 2, 3, 4, other]));
        }
        check.read_alone(group, &file)?;
    }
    Ok(())
}
