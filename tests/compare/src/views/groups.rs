//! The groups of the comparison.

use super::checks::ViewChecker;
use super::sources::{Source, Sources, ViewInput};
use crate::ffi_view;
use compare::lent::LentPart;
use compare::machines::{damage_sound, machine};
use compare::report::{Group, Outcome};
use compare::sounds::each_header;
use reference::machine::{header, Attachment, Machine, Model, HEADER};
use reference::memory::{Rng, PAGE};

const MODELS: [Model; 2] = [Model::K48, Model::K128];

const ATTACHMENTS: [Attachment; 3] = [Attachment::None, Attachment::Interface1, Attachment::Mgt];

/// Lengths of outputs.
const ROOMS: [usize; 8] = [0, 1, 2, PAGE - 1, PAGE, PAGE + 1, 2 * PAGE, 2 * PAGE + 1];

/// The header of a machine that is random but for these two.
fn ours(rng: &mut Rng, model: Model, attachment: Attachment) -> Vec<u8> {
    let machine = Machine {
        attachment,
        ..machine(rng, model)
    };
    header(&machine).to_vec()
}

/// A header of ours; with any byte changed, which may be ours; damaged, also in its sound, which is not; and of 85, 87
/// and 0 bytes.
fn headers(rng: &mut Rng, model: Model, attachment: Attachment) -> [Vec<u8>; 7] {
    let good = ours(rng, model, attachment);
    let (mut changed, mut damaged) = (good.clone(), good.clone());
    changed[rng.below(HEADER)] ^= 1 + rng.below(255) as u8;
    damaged[58] = 1;
    let mut other_sound = good.clone();
    damage_sound(rng, &mut other_sound);
    let shorter = good[..HEADER - 1].to_vec();
    let longer = [&good[..], &[0]].concat();
    [
        good,
        changed,
        damaged,
        other_sound,
        shorter,
        longer,
        Vec::new(),
    ]
}

/// A header, at least every other time a good one.
fn any_header(rng: &mut Rng) -> Source {
    let (model, attachment) = (rng.pick(&MODELS), rng.pick(&ATTACHMENTS));
    let all = headers(rng, model, attachment);
    let number = rng.below(2) * rng.below(all.len());
    Source::new(all[number].clone(), rng)
}

/// A page number, mostly one that some machine has.
fn any_page(rng: &mut Rng) -> u8 {
    match rng.below(4) {
        0 => rng.byte(),
        _ => rng.below(10) as u8,
    }
}

/// Every page number with headers of every kind and every length of ROM and area.
pub fn every_page(
    group: &mut Group,
    check: &mut ViewChecker,
    sources: &Sources,
    rng: &mut Rng,
    (model, attachment): (Model, Attachment),
) -> Outcome {
    for bytes in headers(rng, model, attachment) {
        let header = &Source::new(bytes, rng);
        for rom in &sources.roms {
            for area in &sources.areas {
                let from = ViewInput { header, rom, area };
                for page in 0..=255 {
                    check.page(group, from, page, PAGE)?;
                }
                from.unchanged()?;
            }
        }
    }
    Ok(())
}

/// Every value of every header byte, with the ROM of either model and some pages.
pub fn every_header_byte(
    group: &mut Group,
    check: &mut ViewChecker,
    sources: &Sources,
    rng: &mut Rng,
) -> Outcome {
    for model in MODELS {
        for at in 0..HEADER {
            for value in 0..=255 {
                let attachment = rng.pick(&ATTACHMENTS);
                let mut bytes = ours(rng, model, attachment);
                bytes[at] = value;
                let header = Source::new(bytes, rng);
                for rom_of in MODELS {
                    let from = sources.right(&header, rom_of);
                    for page in [8, 9, any_page(rng)] {
                        check.page(group, from, page, PAGE)?;
                    }
                }
            }
        }
    }
    Ok(())
}

/// Headers of every value of byte 37, with the ROM of either model.
pub fn sound(
    group: &mut Group,
    check: &mut ViewChecker,
    sources: &Sources,
    rng: &mut Rng,
) -> Outcome {
    let mut fills = Rng::new(rng.word());
    each_header(rng, |header| {
        let header = Source::new(header.bytes.to_vec(), &mut fills);
        for rom_of in MODELS {
            let from = sources.right(&header, rom_of);
            for page in [0, 9] {
                check.page(group, from, page, PAGE)?;
            }
        }
        Ok(())
    })
}

/// Outputs of every kind of length, for pages that are given and for each refusal.
pub fn outputs(
    group: &mut Group,
    check: &mut ViewChecker,
    sources: &Sources,
    rng: &mut Rng,
) -> Outcome {
    for case in 0..240 {
        let (model, attachment) = (MODELS[case % 2], ATTACHMENTS[case % 3]);
        let [good, _, damaged, ..] = headers(rng, model, attachment);
        let (good, damaged) = (&Source::new(good, rng), &Source::new(damaged, rng));
        let right = sources.right(good, model);
        let rom = &sources.roms[case % sources.roms.len()];
        let area = &sources.areas[case % sources.areas.len()];
        let header = damaged;
        let others = [
            ViewInput { header, ..right },
            ViewInput { rom, ..right },
            ViewInput { area, ..right },
        ];
        for from in [right].into_iter().chain(others) {
            for room in ROOMS.into_iter().chain([rng.below(3 * PAGE)]) {
                for page in (0..=10).chain([rng.byte()]) {
                    check.page(group, from, page, room)?;
                }
            }
            from.unchanged()?;
        }
    }
    Ok(())
}

/// The page is what `snap_view` points at, by the library alone.
pub fn pointed_at(
    group: &mut Group,
    check: &mut ViewChecker,
    sources: &Sources,
    rng: &mut Rng,
) -> Outcome {
    for _ in 0..20_000 {
        let header = &any_header(rng);
        let (rom, area) = sources.pick(rng);
        let from = ViewInput { header, rom, area };
        for _ in 0..4 {
            check.pointed_at(group, from, any_page(rng))?;
        }
        from.unchanged()?;
    }
    Ok(())
}

/// Length and bytes are the same over two different dirty outputs.
pub fn nothing_before(group: &mut Group, sources: &Sources, rng: &mut Rng) -> Outcome {
    for _ in 0..40_000 {
        group.inputs += 1;
        let header = &any_header(rng);
        let (rom, area) = sources.pick(rng);
        let from = ViewInput { header, rom, area };
        let (page, room, fill) = (any_page(rng), rng.pick(&ROOMS), rng.word());
        let run = |fill: u64| {
            let mut out = LentPart::new(room, fill);
            let length = ffi_view::page(from.lent(), page, out.part_mut());
            (length, out)
        };
        let ((first, one), (second, two)) = (run(fill), run(!fill));
        let difference = one.difference(two.part()).or(two.guards());
        if first != second || difference.is_some() {
            let what = format!("lengths {first} and {second}, {difference:?}");
            return Err(format!("page {page} into {room} bytes: {what}"));
        }
    }
    Ok(())
}
