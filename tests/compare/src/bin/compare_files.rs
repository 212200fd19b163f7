//! Compares what the library reads from the stored files of a second program with what went into them, and
//! writes each accepted machine by the library for that program to read. Explains these files and those of two more
//! folders, sample files and inputs of the fuzz target.
//! compare_files [FILES [WRITTEN [SAMPLES [INPUTS]]]]: the stored files (tests/files), where to write (target/written),
//! and both folders (samples, tests/fuzz/corpus).
#![deny(unsafe_code)]

#[path = "../files/mod.rs"]
mod files;

use compare::calls::files::FileChecker;
use compare::calls::formats::Z80_FORMAT;
use compare::report::Report;
use files::{explained, stored, written};
use reference::samples::samples;
use std::path::PathBuf;
use std::process::ExitCode;

fn argument(number: usize, otherwise: &str) -> PathBuf {
    let given = std::env::args().nth(number);
    PathBuf::from(given.unwrap_or(otherwise.into()))
}

/// Files that a run must at least explain, inputs of the fuzz target among them.
const LEAST_EXPLAINED: u64 = 600;

fn main() -> ExitCode {
    let (dir, out) = (argument(1, "tests/files"), argument(2, "target/written"));
    let (shown, inputs) = (argument(3, "samples"), argument(4, "tests/fuzz/corpus"));
    let samples = samples();
    let mut report = Report::new(samples.len() as u64);
    report.fact("the table of answers", stored::table(&dir, &samples));
    for sample in &samples {
        let name = format!("{} gives {}", sample.file_name(), sample.number);
        report.group(&name, |group| stored::read(group, &dir, sample));
    }
    report.fact("machines written", written::all(&out, &dir, &samples));
    let check = &mut FileChecker::new(Z80_FORMAT, 9);
    report.group("stored files explained", |group| {
        explained::stored(group, check, &dir, &samples)
    });
    report.group("sample files explained", |group| {
        explained::good(group, check, &shown)
    });
    report.group("fuzz inputs explained", |group| {
        explained::inputs(group, check, &inputs)
    });
    report.fact("every file explained", check.figures.files(LEAST_EXPLAINED));
    report.finish()
}
