//! Groups that pack. Every input is also unpacked again, and its length asked for.

use super::checks::PackingChecker;
use super::{list_of_runs, lists, random_list};
use crate::ffi_packing;
use compare::report::{hex, Group, Outcome};
use reference::memory::{images, Rng, MEMORY, PAGE};
use reference::packing::{packed, ED};

/// The longest that a page packs to.
const LONGEST_PAGE: usize = 27_306;

pub fn all_lists(group: &mut Group, check: &mut PackingChecker) -> Outcome {
    for src in lists(8) {
        check.pack(group, &src, &[2, 20])?;
    }
    Ok(())
}

/// Runs of every length up to 520 of some bytes, alone, after ED and before it.
pub fn run_lengths(group: &mut Group, check: &mut PackingChecker) -> Outcome {
    for length in 0..=520 {
        for byte in [0x00, 0x41, ED, 0xEC, 0xFF] {
            let run = vec![byte; length];
            for (before, after) in [(0, 0), (1, 0), (0, 1), (1, 1), (2, 2), (3, 1)] {
                let src = [&vec![ED; before], &run[..], &vec![ED; after]].concat();
                check.pack(group, &src, &[4, 9])?;
            }
        }
    }
    Ok(())
}

/// Runs at every place of a look of 16 bytes, so that they end in it, at its end or after it, a single ED before
/// every other one.
pub fn looks(group: &mut Group, check: &mut PackingChecker) -> Outcome {
    for before in 0..40 {
        for length in (0..24).chain([239, 240, 254, 255, 256]) {
            for byte in [0x00, ED] {
                for after in [0, 1, 3, 4, 15, 16, 20] {
                    let mut src: Vec<u8> = (1..=before).collect();
                    if let (Some(last), 1) = (src.last_mut(), length % 2) {
                        *last = ED;
                    }
                    src.resize(src.len() + length, byte);
                    src.extend(100..100 + after);
                    check.pack(group, &src, &[usize::from(before) + 9])?;
                }
            }
        }
    }
    Ok(())
}

pub fn random_runs(group: &mut Group, check: &mut PackingChecker, rng: &mut Rng) -> Outcome {
    for case in 0..220_000 {
        let src = list_of_runs(rng, case);
        check.pack(group, &src, &[rng.below(200)])?;
    }
    Ok(())
}

pub fn random_bytes(group: &mut Group, check: &mut PackingChecker, rng: &mut Rng) -> Outcome {
    for case in 0..200_000 {
        let src = random_list(rng, case);
        check.pack(group, &src, &[rng.below(60)])?;
    }
    Ok(())
}

pub fn whole_images(group: &mut Group, check: &mut PackingChecker, rng: &mut Rng) -> Outcome {
    for _ in 0..3 {
        for (_, memory) in images(rng.word()) {
            check.pack(group, &memory, &[MEMORY, rng.below(2 * MEMORY)])?;
        }
    }
    Ok(())
}

/// No page packs to more than 27,306 bytes, and one packs to just that.
pub fn longest_page(group: &mut Group, check: &mut PackingChecker, rng: &mut Rng) -> Outcome {
    let mut worst = [ED, ED, 0x00].repeat(5461);
    worst.push(0x00);
    check.pack(group, &worst, &[LONGEST_PAGE, PAGE])?;
    if ffi_packing::packed_len(&worst) != LONGEST_PAGE as u64 {
        return Err(format!("not {LONGEST_PAGE}: {}", hex(&worst)));
    }
    let mut pages: Vec<Vec<u8>> = Vec::new();
    for (_, memory) in images(rng.word()) {
        pages.extend(memory.chunks(PAGE).map(<[u8]>::to_vec));
    }
    for _ in 0..100 {
        let kinds = 1 + rng.below(3);
        let mut page = Vec::new();
        while page.len() < PAGE {
            page.resize(page.len() + 1 + rng.below(kinds + 1), ED);
            page.resize(page.len() + 1 + rng.below(kinds), 0x00);
        }
        page.truncate(PAGE);
        pages.push(page);
    }
    for page in pages {
        check.pack(group, &page, &[LONGEST_PAGE])?;
        let length = ffi_packing::packed_len(&page) as usize;
        if length > LONGEST_PAGE || length != packed(&page).len() {
            return Err(format!("packed length {length} of {}", hex(&page)));
        }
    }
    Ok(())
}
