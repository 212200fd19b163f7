//! Groups that unpack data with a bad code at a known place.

use super::checks::PackingChecker;
use compare::bad_codes::{any_front, looks_bad, plain_front, BadData, CUT_CODES, ZERO_CODES};
use compare::report::{Group, Outcome};
use reference::memory::Rng;
use reference::packing::{unpacked, UnpackedBytes};
use std::collections::BTreeSet;

/// Past three looks of 64 bytes, so that a code stands at every place of one, with others before and after.
const PLACES: usize = 260;

/// What is after a bad code, so that it is found by a look or byte by byte.
const AFTER: [usize; 12] = [0, 1, 2, 11, 31, 32, 60, 63, 64, 67, 96, 130];

/// Misleading data that a group with other codes before the bad one must at least have.
const LEAST_MISLEADING: usize = 500;

/// The places of the bad codes that were told, and in how many data they were misleading.
#[derive(Default)]
struct ToldCodes {
    places: BTreeSet<usize>,
    misleading: usize,
}

/// Unpacks into parts that are full before, at and after the bad code.
fn unpack(
    group: &mut Group,
    check: &mut PackingChecker,
    bad: &BadData,
    told: &mut ToldCodes,
) -> Outcome {
    let BadData { data, code } = bad;
    let UnpackedBytes::Bytes(front) = unpacked(&data[..*code]) else {
        return Err("the front is no good".into());
    };
    let due = UnpackedBytes::Malformed(*code);
    if unpacked(data) != due {
        return Err(format!("the reference's {:?}, not {due:?}", unpacked(data)));
    }
    told.places.insert(*code);
    told.misleading += usize::from(bad.is_misleading());
    let full = front.len();
    let parts = [full, full + 1, full / 2, full.saturating_sub(1), full + 700];
    check.unpack(group, data, &parts)
}

/// Each place up to PLACES was told, and enough data were misleading.
fn every_place(told: &ToldCodes) -> Outcome {
    match (0..=PLACES).find(|place| !told.places.contains(place)) {
        Some(place) => Err(format!("no bad code at {place}")),
        None if told.misleading < LEAST_MISLEADING => {
            Err(format!("only {} data were misleading", told.misleading))
        }
        None => Ok(()),
    }
}

/// A bad code at every place, after plain bytes and after other codes: as the last bytes, and with more after it.
pub fn every_code(group: &mut Group, check: &mut PackingChecker, rng: &mut Rng) -> Outcome {
    let told = &mut ToldCodes::default();
    for before in 0..=PLACES {
        for front in [
            plain_front(before),
            any_front(rng, before),
            any_front(rng, before),
        ] {
            for code in CUT_CODES {
                unpack(group, check, &BadData::new(&front, code, &[]), told)?;
            }
            for after in AFTER {
                let code = rng.pick(&ZERO_CODES);
                let bad = BadData::new(&front, code, &plain_front(after));
                unpack(group, check, &bad, told)?;
            }
        }
    }
    every_place(told)
}

/// Another bad code after the first, at every distance: the first counts.
pub fn two_codes(group: &mut Group, check: &mut PackingChecker, rng: &mut Rng) -> Outcome {
    let told = &mut ToldCodes::default();
    for before in 0..=PLACES {
        for between in (0..6).chain([27, 28, 55, 59, 60, 61, 64, 124, 188]) {
            let front = match between % 2 {
                0 => plain_front(before),
                _ => any_front(rng, before),
            };
            let second = match between % 3 {
                0 => rng.pick(&CUT_CODES),
                _ => rng.pick(&ZERO_CODES),
            };
            let after = [&any_front(rng, between), second].concat();
            let bad = BadData::new(&front, rng.pick(&ZERO_CODES), &after);
            unpack(group, check, &bad, told)?;
        }
    }
    every_place(told)
}

/// Bad codes far behind the first bytes, where no part has room any more.
pub fn far_codes(group: &mut Group, check: &mut PackingChecker, rng: &mut Rng) -> Outcome {
    let told = &mut ToldCodes::default();
    for near in [256, 4_096, 16_384, 65_536, 131_072] {
        for place in near - 3..=near + 3 {
            let front = any_front(rng, place);
            let bad = BadData::new(&front, rng.pick(&CUT_CODES), &[]);
            unpack(group, check, &bad, told)?;
            let after = rng.bytes(100);
            let bad = BadData::new(&plain_front(place), rng.pick(&ZERO_CODES), &after);
            unpack(group, check, &bad, told)?;
        }
    }
    match told.places.len() == 5 * 7 && told.places.last() == Some(&131_075) {
        true => Ok(()),
        false => Err(format!("bad codes at {:?}", told.places)),
    }
}

/// Data that are good, though a code that ends in ED and a single ED after it look bad.
pub fn no_codes(group: &mut Group, check: &mut PackingChecker, rng: &mut Rng) -> Outcome {
    let mut misleading = 0;
    for length in 0..=3 * PLACES {
        let src = any_front(rng, length);
        if matches!(unpacked(&src), UnpackedBytes::Malformed(_)) {
            return Err("the front is no good".into());
        }
        misleading += usize::from(looks_bad(&src));
        check.unpack(group, &src, &[length])?;
    }
    match misleading >= LEAST_MISLEADING {
        true => Ok(()),
        false => Err(format!("only {misleading} data were misleading")),
    }
}
