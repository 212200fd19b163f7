//! The groups of the comparison.

use super::checks::LookChecker;
use super::headers::{addresses, borders, every_pair, of_kind, ours, MACHINE_KINDS};
use compare::machines::damage_sound;
use compare::report::{Group, Outcome};
use compare::sounds::each_header;
use reference::machine::{header, Attachment, Machine, Model, HEADER, PAIRS};
use reference::memory::Rng;
use reference::samples::samples;

/// The model, these pairs and these addresses of a header.
fn look(
    group: &mut Group,
    check: &mut LookChecker,
    header: &[u8],
    pairs: &[u8],
    addresses: &[u16],
) -> Outcome {
    let at = check.lend(header);
    check.model(group, &at)?;
    for pair in pairs {
        check.pair(group, &at, *pair)?;
    }
    for address in addresses {
        check.place(group, &at, *address)?;
    }
    at.unchanged()
}

/// Random machines of one kind, every pair number and many addresses.
pub fn machines(
    group: &mut Group,
    check: &mut LookChecker,
    rng: &mut Rng,
    kind: (Model, Attachment),
) -> Outcome {
    for _ in 0..200 {
        let bytes = ours(rng, kind);
        look(group, check, &bytes, &every_pair(), &addresses(rng))?;
    }
    Ok(())
}

/// The blank machine, and those of the stored files.
pub fn stored(group: &mut Group, check: &mut LookChecker, rng: &mut Rng) -> Outcome {
    let blank = [Machine::blank()].into_iter();
    for machine in blank.chain(samples().into_iter().map(|sample| sample.machine)) {
        let bytes = header(&machine);
        look(group, check, &bytes, &every_pair(), &addresses(rng))?;
    }
    Ok(())
}

/// Every address of machines of every kind and with every page at C000, and of headers that are refused.
pub fn every_address(group: &mut Group, check: &mut LookChecker, rng: &mut Rng) -> Outcome {
    let all: Vec<u16> = (0..=0xFFFF).collect();
    for kind in MACHINE_KINDS {
        let pages = if kind.0 == Model::K48 { 1 } else { 8 };
        for page in 0..pages {
            let mut machine = of_kind(rng, kind);
            machine.paging = machine.paging & 0xF8 | page;
            look(group, check, &header(&machine), &[], &all)?;
        }
        let mut damaged = ours(rng, kind);
        damaged[58] = 1;
        let mut other_sound = ours(rng, kind);
        damage_sound(rng, &mut other_sound);
        for refused in [damaged, other_sound] {
            look(group, check, &refused, &[], &all)?;
        }
    }
    Ok(())
}

/// Every last OUT to 7FFD; on a 48K all but 0 are refused.
pub fn every_last_out(group: &mut Group, check: &mut LookChecker, rng: &mut Rng) -> Outcome {
    for kind in MACHINE_KINDS {
        for last_out in 0..=255 {
            let mut bytes = ours(rng, kind);
            bytes[35] = last_out;
            look(group, check, &bytes, &[], &addresses(rng))?;
        }
    }
    Ok(())
}

/// Every value of every pair; now and then all pairs, as the others must stay.
pub fn every_value(group: &mut Group, check: &mut LookChecker, rng: &mut Rng) -> Outcome {
    for pair in 0..PAIRS {
        let kind = rng.pick(&MACHINE_KINDS);
        let mut machine = of_kind(rng, kind);
        for value in 0..=0xFFFF {
            machine.put_pair(pair, value);
            let pairs = match value % 0x101 {
                0 => every_pair(),
                _ => vec![pair],
            };
            look(group, check, &header(&machine), &pairs, &[])?;
        }
    }
    Ok(())
}

/// Every single bit of headers of every kind changed.
pub fn every_bit(group: &mut Group, check: &mut LookChecker, rng: &mut Rng) -> Outcome {
    let random = MACHINE_KINDS.map(|kind| ours(rng, kind));
    for bytes in random.into_iter().chain([header(&Machine::blank())]) {
        for bit in 0..8 * HEADER {
            let mut changed = bytes;
            changed[bit / 8] ^= 1 << (bit % 8);
            look(group, check, &changed, &every_pair(), &borders())?;
        }
    }
    Ok(())
}

/// Every value of every header byte.
pub fn every_byte(group: &mut Group, check: &mut LookChecker, rng: &mut Rng) -> Outcome {
    for kind in MACHINE_KINDS {
        for at in 0..HEADER {
            for value in 0..=255 {
                let mut bytes = ours(rng, kind);
                bytes[at] = value;
                let pairs: Vec<u8> = (0..=PAIRS).chain([rng.byte()]).collect();
                let addresses = [0x3FFF, 0x4000, 0xBFFF, 0xC000, rng.word() as u16];
                look(group, check, &bytes, &pairs, &addresses)?;
            }
        }
    }
    Ok(())
}

/// Headers of every value of byte 37.
pub fn sound(group: &mut Group, check: &mut LookChecker, rng: &mut Rng) -> Outcome {
    let pairs = [0, PAIRS - 1, PAIRS];
    each_header(rng, |header| {
        look(
            group,
            check,
            &header.bytes,
            &pairs,
            &[0x3FFF, 0x4000, 0xC000],
        )
    })
}

/// Headers of 0 to 90 bytes: the beginning of a good one, or a good one and zeros, itself or noise.
pub fn every_length(group: &mut Group, check: &mut LookChecker, rng: &mut Rng) -> Outcome {
    for kind in MACHINE_KINDS {
        let good = ours(rng, kind);
        let noise = rng.bytes(HEADER);
        for more in [&[0; HEADER], &good, &noise[..]] {
            let long = [&good, more].concat();
            for length in (0..=90).chain([2 * HEADER]) {
                look(group, check, &long[..length], &every_pair(), &borders())?;
            }
        }
    }
    Ok(())
}

/// Headers with some bits changed, and noise.
pub fn noise(group: &mut Group, check: &mut LookChecker, rng: &mut Rng) -> Outcome {
    for case in 0..30_000 {
        let mut bytes = ours(rng, MACHINE_KINDS[case % 6]).to_vec();
        for _ in 0..rng.below(4) {
            bytes[rng.below(HEADER)] ^= 1 << rng.below(8);
        }
        if case % 7 == 0 {
            bytes = rng.bytes(HEADER);
        }
        let pairs = [rng.below(PAIRS.into()) as u8, rng.byte()];
        let addresses: [u16; 4] = std::array::from_fn(|_| rng.word() as u16);
        look(group, check, &bytes, &pairs, &addresses)?;
    }
    Ok(())
}
