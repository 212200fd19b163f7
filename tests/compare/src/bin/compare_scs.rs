//! Compares reading and writing of SCS files by the library with the reference on generated files.
#![deny(unsafe_code)]

#[path = "../scs/mod.rs"]
mod scs;

use compare::calls::files::FileChecker;
use compare::calls::formats::SCS_FORMAT;
use compare::calls::offsets::LEAST_OFFSETS;
use compare::report::{Group, Outcome, Report};
use scs::maker::ScsMaker;
use scs::place_groups::SCS_TOLD_PLACES;
use scs::{block_groups, cut_groups, fault_groups, field_groups};
use scs::{place_groups, size_groups, sound_groups, start_groups, write_groups};
use std::process::ExitCode;

/// Generated files that a run must at least read.
const LEAST_SCS_FILES: u64 = 200_000;

type Run = fn(&mut Group, &mut FileChecker, &mut ScsMaker) -> Outcome;

const GROUPS: [(&str, Run); 35] = [
    ("examples", |g, c, _| start_groups::examples(g, c)),
    ("every hardware number", start_groups::hardware),
    ("every byte of the start", start_groups::every_byte),
    ("every first block", start_groups::first_block),
    ("read into other buffers", start_groups::buffers),
    ("good files", block_groups::good),
    ("every order of blocks", block_groups::every_order),
    ("skipped blocks", block_groups::skipped),
    ("ends", block_groups::ends),
    ("ends before a block", block_groups::early_ends),
    ("lists of blocks", block_groups::lists),
    ("changed files", block_groups::changed),
    ("random bytes", block_groups::random_bytes),
    ("lengths of CPU and Ports", size_groups::registers),
    ("lengths of Memory", size_groups::memory),
    ("sizes near 2^32", size_groups::near_2_to_32),
    ("every size of a block", size_groups::every_size),
    ("every cut of short files", cut_groups::short_files),
    ("cuts of whole files", cut_groups::whole_files),
    ("every value of a field", field_groups::every_value),
    ("random machines", field_groups::random_machines),
    ("sound of every Ports block", sound_groups::ports),
    ("one damaged place", fault_groups::single),
    ("several damaged places", fault_groups::several),
    ("two damaged blocks", fault_groups::in_two_blocks),
    ("8 at every head", place_groups::cut_blocks),
    ("42 at every head", place_groups::blocks_twice),
    ("no offset", place_groups::without_offset),
    ("no offset in other buffers", place_groups::other_buffers),
    ("write into outputs", write_groups::rooms),
    ("write whole images", write_groups::whole_images),
    ("write every header byte", write_groups::every_header_byte),
    ("write every value of byte 37", sound_groups::headers),
    ("write with and without the chip", sound_groups::chips),
    ("write foreign headers", write_groups::foreign_headers),
];

fn main() -> ExitCode {
    let mut report = Report::new(LEAST_SCS_FILES);
    let check = &mut FileChecker::new(SCS_FORMAT, 1);
    let maker = &mut ScsMaker::new(2);
    for (name, run) in GROUPS {
        report.group(name, |group| run(group, check, maker));
    }
    report.group("write from other buffers", |g| {
        write_groups::buffers(g, check, maker)
    });
    report.group("the blank machine", |g| write_groups::blank(g, check));
    report.fact("every number seen", check.numbers_seen(LEAST_SCS_FILES));
    report.fact("every offset seen", check.offsets_seen(LEAST_OFFSETS));
    report.fact("every place seen", check.places.all(&SCS_TOLD_PLACES));
    report.finish()
}
