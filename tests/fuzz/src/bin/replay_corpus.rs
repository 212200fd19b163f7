//! replay_corpus [FOLDER..]: runs every file of the folders (tests/fuzz/corpus) as an input of the fuzz target. All of
//! them together reach every number, each that has an offset at several places and in eight blocks, each figure that can
//! be due, and every kind of sound.
#![forbid(unsafe_code)]

use compare::calls::explain::FigureCounts;
use compare::machines::CHIP_STATES;
use compare::report::{Group, Outcome, Report};
use fuzz::input::{Input, InputMode, MODES};
use fuzz::target::Target;
use std::collections::BTreeSet;
use std::io::Result;
use std::process::ExitCode;

/// Inputs of a corpus that is worth its name, and calls in them that the model follows.
const LEAST_INPUTS: u64 = 200;
const LEAST_MODELLED: u64 = 2_000;

/// Different offsets that each number with an offset must at least have, and different blocks.
const LEAST_CORPUS_OFFSETS: usize = 3;
const LEAST_CORPUS_BLOCKS: usize = 8;

/// Files of the corpus that are explained.
const LEAST_CORPUS_FILES: u64 = 300;

/// What can be due with each number that has figures, and the ends of what can be found.
const CORPUS_DUES: [(u32, &[u64]); 4] = [
    (2, &[30, 32, 55, 86]),
    (6, &[3, 17_471, 17_726]),
    (12, &[16_384, 49_152]),
    (13, &[3, 8]),
];
const CORPUS_PAIRS: [(u32, &[(u64, u64)]); 4] = [
    (
        2,
        &[(0, 30), (29, 30), (30, 32), (31, 32), (54, 55), (85, 86)],
    ),
    (6, &[(17_472, 17_471), (17_727, 17_726), (4, 3), (255, 3)]),
    (
        12,
        &[
            (0, 16_384),
            (65_535, 16_384),
            (65_536, 16_384),
            (65_536, 49_152),
        ],
    ),
    (13, &[(0, 3), (2, 3), (0, 8), (7, 8)]),
];

/// The files of the folders by name, each with its bytes.
fn inputs(folders: &[String]) -> Result<Vec<(String, Vec<u8>)>> {
    let mut inputs = Vec::new();
    for folder in folders {
        for entry in std::fs::read_dir(folder)? {
            let path = entry?.path();
            inputs.push((path.display().to_string(), std::fs::read(&path)?));
        }
    }
    inputs.sort();
    Ok(inputs)
}

/// Runs the inputs of a mode.
fn run(
    group: &mut Group,
    target: &mut Target,
    mode: InputMode,
    all: &[(String, Vec<u8>)],
) -> Outcome {
    for (name, bytes) in all {
        if Input::new(bytes).mode() == mode {
            group.inputs += 1;
            let tell = |what| format!("{name}: {what}");
            target.run(bytes).map_err(tell)?;
        }
    }
    Ok(())
}

/// The numbers of blocks were told in eight of them, and every figure that can be due was.
fn explained(told: &FigureCounts) -> Outcome {
    told.files(LEAST_CORPUS_FILES)?;
    for number in 8..=12 {
        let blocks = told.blocks(number);
        if blocks.len() < LEAST_CORPUS_BLOCKS {
            return Err(format!("{number} in blocks {blocks:?}"));
        }
    }
    for (number, dues) in CORPUS_DUES {
        told.expect_dues(number, dues)?;
    }
    for (number, pairs) in CORPUS_PAIRS {
        told.expect_pairs(number, pairs.iter().copied())?;
    }
    Ok(())
}

/// Machines with every kind of sound were read, but for those that a format has not.
fn sounds(read: &BTreeSet<usize>, first: usize) -> Outcome {
    let due: Vec<_> = CHIP_STATES[first..].iter().collect();
    let read: Vec<_> = read.iter().map(|place| &CHIP_STATES[*place]).collect();
    match read == due {
        true => Ok(()),
        false => Err(format!("{read:?}, should be {due:?}")),
    }
}

fn main() -> Result<ExitCode> {
    let mut folders: Vec<String> = std::env::args().skip(1).collect();
    if folders.is_empty() {
        folders.push("tests/fuzz/corpus".into());
    }
    let all = inputs(&folders)?;
    let mut report = Report::new(LEAST_INPUTS);
    let target = &mut Target::default();
    for mode in MODES {
        let name = format!("{mode:?}").to_lowercase();
        report.group(&name, |group| run(group, target, mode, &all));
    }
    for (name, format) in [".z80", "SCS"].into_iter().zip(&target.formats) {
        let (numbers, offsets) = (
            format!("every number of {name} files"),
            format!("offsets of {name} files"),
        );
        report.fact(&numbers, format.checker.numbers_seen(1));
        report.fact(&offsets, format.checker.offsets_seen(LEAST_CORPUS_OFFSETS));
    }
    let [z80, scs] = &target.formats;
    report.fact("every kind of sound of .z80 files", sounds(&z80.sounds, 0));
    // every machine from SCS has the chip
    report.fact("every kind of sound of SCS files", sounds(&scs.sounds, 1));
    report.fact(
        "explanations of .z80 files",
        explained(&z80.checker.figures),
    );
    report.fact("every number of the log", target.journal.seen.all(1));
    let modelled = match target.modelled {
        LEAST_MODELLED.. => Ok(()),
        few => Err(format!("only {few} calls")),
    };
    report.fact("calls by the model", modelled);
    Ok(report.finish())
}
