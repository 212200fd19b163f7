//! Groups that view a page.

use compare::calls::journal::JournalChecker;
use compare::calls::{note, outcome, view};
use compare::lent::LentPart;
use compare::machines::{damage_sound, header};
use compare::report::{Group, Outcome};
use compare::sounds::each_header;
use reference::machine::{Model, HEADER};
use reference::memory::{Rng, MEMORY, PAGE};

const ROMS: [usize; 13] = [
    0,
    1,
    PAGE - 1,
    PAGE,
    PAGE + 1,
    2 * PAGE - 1,
    2 * PAGE,
    2 * PAGE + 1,
    3 * PAGE,
    4 * PAGE,
    81_920,
    MEMORY,
    MEMORY + PAGE,
];

const AREAS: [usize; 7] = [0, 1, PAGE, MEMORY - 1, MEMORY, MEMORY + 1, 2 * MEMORY];

/// Every page with every length of ROM and area, both models and headers of other kinds.
pub fn every_page(group: &mut Group, check: &mut JournalChecker, rng: &mut Rng) -> Outcome {
    for rom in ROMS {
        for area in AREAS {
            let rom = LentPart::holding(&rng.bytes(rom), rng.word());
            let area = LentPart::holding(&rng.bytes(area), rng.word());
            let (rom_before, area_before) = (rom.part().to_vec(), area.part().to_vec());
            for bytes in headers(rng) {
                let bytes_lent = LentPart::holding(&bytes, rng.word());
                for page in 0..=255 {
                    group.inputs += 1;
                    view::call(&mut check.seen, &bytes_lent, &rom, &area, page)?;
                }
                let mut wrong = Vec::new();
                note(&mut wrong, "header", bytes_lent.difference(&bytes));
                note(&mut wrong, "ROM", rom.difference(&rom_before));
                note(&mut wrong, "area", area.difference(&area_before));
                outcome(wrong)?;
            }
        }
    }
    Ok(())
}

/// Good headers of both models, damaged ones, and ones of other lengths.
fn headers(rng: &mut Rng) -> Vec<Vec<u8>> {
    let mut all = Vec::new();
    for model in [Model::K48, Model::K128] {
        let good = header(rng, model);
        let (mut damaged, mut other_sound) = (good.clone(), good.clone());
        damaged[58] = 1;
        damage_sound(rng, &mut other_sound);
        all.extend([damaged, other_sound, good[..HEADER - 1].to_vec()]);
        all.push([&good[..], &[0]].concat());
        all.push(good);
        all.push(header(rng, model));
    }
    all.push(Vec::new());
    all
}

/// Every value of every header byte, each with some pages.
pub fn every_header_byte(group: &mut Group, check: &mut JournalChecker, rng: &mut Rng) -> Outcome {
    let area = LentPart::new(MEMORY, rng.word());
    for (model, rom) in [(Model::K48, PAGE), (Model::K128, 2 * PAGE)] {
        let rom = LentPart::new(rom, rng.word());
        for at in 0..HEADER {
            for value in 0..=255 {
                let mut bytes = header(rng, model);
                bytes[at] = value;
                let bytes = LentPart::holding(&bytes, rng.word());
                for page in [0, 1, 8, 9, rng.byte()] {
                    group.inputs += 1;
                    view::call(&mut check.seen, &bytes, &rom, &area, page)?;
                }
            }
        }
    }
    Ok(())
}

/// Headers of every value of byte 37, with the ROM of either model: 20, or another answer.
pub fn sound(group: &mut Group, check: &mut JournalChecker, rng: &mut Rng) -> Outcome {
    let area = LentPart::new(MEMORY, rng.word());
    let roms = [PAGE, 2 * PAGE].map(|rom| LentPart::new(rom, rng.word()));
    let fill = rng.word();
    each_header(rng, |header| {
        let bytes = LentPart::holding(&header.bytes, fill);
        for rom in &roms {
            for page in [0, 9] {
                group.inputs += 1;
                let answer = view::call(&mut check.seen, &bytes, rom, &area, page)?;
                if (answer == 20) == header.is_ours {
                    return Err(format!("the reference answers {answer}"));
                }
            }
        }
        Ok(())
    })
}
