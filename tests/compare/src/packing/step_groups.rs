//! Groups that take steps of packing: at every place of some data, and one after another to their end.

use super::checks::PackingChecker;
use super::{list_of_runs, lists, random_list};
use crate::ffi_packing;
use crate::ffi_step::{self, CODE_BYTES};
use compare::lent::LentPart;
use compare::pack_examples::PACK_EXAMPLES;
use compare::report::{hex, Group, Outcome};
use reference::memory::{images, Rng, PAGE};
use reference::packing::{pack_steps, ED};

/// Steps that a run must at least compare.
const LEAST_STEPS: u64 = 200_000;

/// What is before a run and after it: nothing, ED or another byte, once or more often.
const NEIGHBOURS: [&[u8]; 5] = [&[], &[ED], &[ED, ED], &[0x41], &[0x41; 5]];

fn every_place(group: &mut Group, check: &mut PackingChecker, src: &[u8]) -> Outcome {
    check.steps(group, src, 0..src.len())
}

pub fn examples(group: &mut Group, check: &mut PackingChecker) -> Outcome {
    for example in &PACK_EXAMPLES {
        let data = example.data();
        let steps = pack_steps(&data);
        let cases: Vec<u32> = steps.iter().map(|step| step.case).collect();
        if cases != example.cases {
            return Err(format!("{}: the reference itself", example.name));
        }
        let run = every_place(group, check, &data);
        run.map_err(|what| format!("{}: {what}", example.name))?;
    }
    Ok(())
}

pub fn all_lists(group: &mut Group, check: &mut PackingChecker) -> Outcome {
    for src in lists(9) {
        every_place(group, check, &src)?;
    }
    Ok(())
}

/// Runs of every length up to 300, between neighbours of every kind.
pub fn run_lengths(group: &mut Group, check: &mut PackingChecker) -> Outcome {
    for length in 1..=300 {
        for byte in [ED, 0x00] {
            let run = vec![byte; length];
            for before in NEIGHBOURS {
                for after in NEIGHBOURS {
                    every_place(group, check, &[before, &run, after].concat())?;
                }
            }
        }
    }
    Ok(())
}

/// Where so many bytes are left of a run, and up to eight more or less, that their low bits are those of a short one.
pub fn long_runs(group: &mut Group, check: &mut PackingChecker) -> Outcome {
    const LEFT: [usize; 7] = [256, 512, 4_096, 32_768, 65_536, 65_792, 131_072];
    let length = 131_080;
    let left = |near: usize| near - 8..=near + 8;
    for byte in [ED, 0x00] {
        for after in NEIGHBOURS {
            let src = [&vec![byte; length], after].concat();
            let places = LEFT.into_iter().flat_map(left).map(|left| length - left);
            check.steps(group, &src, places)?;
        }
    }
    Ok(())
}

pub fn random_runs(group: &mut Group, check: &mut PackingChecker, rng: &mut Rng) -> Outcome {
    for case in 0..10_000 {
        every_place(group, check, &list_of_runs(rng, case))?;
    }
    Ok(())
}

pub fn random_bytes(group: &mut Group, check: &mut PackingChecker, rng: &mut Rng) -> Outcome {
    for case in 0..10_000 {
        every_place(group, check, &random_list(rng, case))?;
    }
    Ok(())
}

/// Pages of the images: the first places, the last ones, and some between.
pub fn pages(group: &mut Group, check: &mut PackingChecker, rng: &mut Rng) -> Outcome {
    for (_, memory) in images(rng.word()) {
        for page in memory.chunks(PAGE) {
            let between: Vec<usize> = (0..1_000).map(|_| rng.below(PAGE)).collect();
            let places = (0..300).chain(between).chain(PAGE - 300..PAGE);
            check.steps(group, page, places)?;
        }
    }
    Ok(())
}

/// By the library alone: its steps one after another, joined, are what it packs.
pub fn joined(group: &mut Group, rng: &mut Rng) -> Outcome {
    for src in lists(9) {
        walk(group, &src)?;
    }
    for case in 0..20_000 {
        walk(group, &list_of_runs(rng, case))?;
        walk(group, &random_list(rng, case))?;
    }
    for (_, memory) in images(rng.word()) {
        walk(group, &memory)?;
        for page in memory.chunks(PAGE) {
            walk(group, page)?;
        }
    }
    Ok(())
}

fn walk(group: &mut Group, src: &[u8]) -> Outcome {
    group.inputs += 1;
    let steps = ffi_step::steps(src).map_err(|what| format!("{}: {what}", hex(src)))?;
    let written: Vec<u8> = steps.into_iter().flat_map(|step| step.written).collect();
    let mut length = u64::MAX;
    let mut packed = vec![0xA5; written.len()];
    let answer = ffi_packing::pack(src, &mut packed, &mut length);
    if (answer, length as usize, &packed) != (0, written.len(), &written) {
        let pack = format!("answer {answer}, {length}, {}", hex(&packed));
        let what = format!("{pack}, and {} by steps", hex(&written));
        return Err(format!("{}: {what}", hex(src)));
    }
    Ok(())
}

/// Where the data have no byte, and into a buffer that is not of 4 bytes.
pub fn refused(group: &mut Group, check: &mut PackingChecker, rng: &mut Rng) -> Outcome {
    const ROOMS: [usize; 9] = [0, 1, 2, 3, 5, 6, 8, 260, 65_540];
    for case in 0..300 {
        let src = match case % 3 {
            0 => rng.runs(3, 300),
            1 => rng.runs(14, 7),
            _ => random_list(rng, case),
        };
        group.inputs += 1;
        let source = LentPart::holding(&src, rng.word());
        let end = src.len() as u64;
        for past in [
            end,
            end + 1,
            end + 4,
            end + 255,
            1 << 32,
            (1 << 32) + end / 2,
            (1 << 63) + end / 2,
            end + (rng.word() >> 1 >> rng.below(63)),
            u64::MAX - end,
            u64::MAX - 1,
            u64::MAX,
        ] {
            for room in [CODE_BYTES, 0, 3, 5] {
                check.step_call(&source, &src, past, room)?;
            }
        }
        for at in [0, end / 2, end.saturating_sub(1), end] {
            for room in ROOMS {
                check.step_call(&source, &src, at, room)?;
            }
        }
    }
    Ok(())
}

/// Every case was among the steps compared, and so were places and buffers without a step.
pub fn cases_seen(check: &PackingChecker) -> Outcome {
    let [none, cases @ ..] = check.step_answers;
    let given = format!("steps of cases 1 to 4 {cases:?}, none {none}");
    println!("    {given}");
    let enough = cases.iter().sum::<u64>() >= LEAST_STEPS;
    match enough && check.step_answers.iter().all(|n| *n >= 1000) {
        true => Ok(()),
        false => Err(given),
    }
}
