//! Compares reading, explaining and writing of `.z80` files by the library with the reference on generated files.
#![deny(unsafe_code)]

#[path = "../z80/mod.rs"]
mod z80;

use compare::calls::files::FileChecker;
use compare::calls::formats::Z80_FORMAT;
use compare::calls::offsets::LEAST_OFFSETS;
use compare::report::{Group, Outcome, Report};
use std::process::ExitCode;
use z80::maker::Maker;
use z80::place_groups::TOLD_PLACES;
use z80::{block_groups, code_groups, explain_groups, fault_groups, head_groups, header_groups};
use z80::{order_groups, place_groups, sound_groups, told_figures, write_groups};

/// Generated files that a run must at least read and explain.
const LEAST_FILES: u64 = 200_000;

type Run = fn(&mut Group, &mut FileChecker, &mut Maker) -> Outcome;

const GROUPS: [(&str, Run); 47] = [
    ("examples", |g, c, _| header_groups::examples(g, c)),
    ("every mode", header_groups::modes),
    ("every value of byte 12", |g, c, m| {
        header_groups::every_value(g, c, m, 12)
    }),
    ("every value of byte 29", |g, c, m| {
        header_groups::every_value(g, c, m, 29)
    }),
    ("every value of byte 37", sound_groups::every_value),
    ("every value of byte 37 of v1", sound_groups::v1_bodies),
    ("every header byte", header_groups::every_byte),
    ("T state counters", header_groups::counters),
    ("read into other buffers", header_groups::buffers),
    ("good files", block_groups::good),
    ("read whole images", block_groups::whole_images),
    ("lists of blocks", block_groups::block_lists),
    ("changed files", block_groups::changed),
    ("every cut of short files", block_groups::every_cut),
    ("random bytes", block_groups::random_bytes),
    ("one damaged place", fault_groups::single),
    ("two damaged places", fault_groups::pairs),
    ("three damaged places", fault_groups::triples),
    ("order in the header", order_groups::in_the_header),
    ("order in a block", order_groups::in_a_block),
    ("order in v1", order_groups::in_v1),
    ("9 at every head", head_groups::foreign_numbers),
    ("10 at every head", head_groups::numbers_twice),
    ("12 at every head", head_groups::wrong_lengths),
    ("8 at every head", head_groups::cut_blocks),
    ("12 of v1", head_groups::v1_lengths),
    ("14 of v1", head_groups::v1_markers),
    ("11 in every block", code_groups::blocks),
    ("11 in v1", code_groups::v1_bodies),
    ("11 at the edges of a look", code_groups::looks),
    ("11 before other faults", code_groups::before_others),
    ("no offset", place_groups::without_offset),
    ("no offset in other buffers", place_groups::other_buffers),
    ("no offset for the header", place_groups::header_first),
    ("2 at every length", explain_groups::short_files),
    ("6 of each counter", explain_groups::counters),
    ("12 of every length", explain_groups::block_lengths),
    ("12 of packed v1 bodies", explain_groups::packed_bodies),
    ("12 of plain v1 bodies", explain_groups::plain_bodies),
    ("13 of every choice", explain_groups::missing_blocks),
    ("the first of two blocks", explain_groups::first_of_two),
    ("write into outputs", write_groups::rooms),
    ("write whole images", write_groups::whole_images),
    ("write every header byte", write_groups::every_header_byte),
    ("write every value of byte 37", sound_groups::headers),
    ("write with and without the chip", sound_groups::chips),
    ("write foreign headers", write_groups::foreign_headers),
];

fn main() -> ExitCode {
    let mut report = Report::new(LEAST_FILES);
    let check = &mut FileChecker::new(Z80_FORMAT, 1);
    let maker = &mut Maker::new(2);
    for (name, run) in GROUPS {
        report.group(name, |group| run(group, check, maker));
    }
    report.group("write from other buffers", |g| {
        write_groups::buffers(g, check, maker)
    });
    report.group("the longest file", |g| write_groups::longest_file(g, check));
    report.fact("every number seen", check.numbers_seen(LEAST_FILES));
    report.fact("every offset seen", check.offsets_seen(LEAST_OFFSETS));
    report.fact("every place seen", check.places.all(&TOLD_PLACES));
    report.fact("every file explained", check.figures.files(LEAST_FILES));
    report.fact("every block told", told_figures::blocks(&check.figures));
    report.fact("every figure told", told_figures::pairs(&check.figures));
    report.finish()
}
