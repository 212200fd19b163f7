//! Compares the packing of the library with the reference on generated inputs.
#![deny(unsafe_code)]

#[path = "../ffi_packing.rs"]
mod ffi_packing;
#[path = "../ffi_step.rs"]
mod ffi_step;
#[path = "../packing/mod.rs"]
mod packing;

use compare::report::{Group, Outcome, Report};
use packing::checks::PackingChecker;
use packing::{
    general_groups, length_groups, pack_groups, place_groups, step_groups, unpack_groups,
};
use reference::memory::Rng;
use std::process::ExitCode;

/// Inputs that a run must at least compare.
const LEAST_INPUTS_PACKED: u64 = 1_000_000;

type Run = fn(&mut Group, &mut PackingChecker, &mut Rng) -> Outcome;

const GROUPS: [(&str, Run); 33] = [
    ("examples P1 to P11", |g, c, _| {
        general_groups::examples(g, c)
    }),
    ("unpack every short list", |g, c, _| {
        unpack_groups::all_lists(g, c)
    }),
    ("unpack random codes", unpack_groups::random_codes),
    ("unpack random bytes", unpack_groups::random_bytes),
    ("unpack damaged codes", unpack_groups::damaged),
    ("unpack with little room", |g, c, _| {
        unpack_groups::little_room(g, c)
    }),
    ("unpack at the edges of a look", |g, c, _| {
        unpack_groups::looks(g, c)
    }),
    ("unpack packed pages", unpack_groups::pages),
    ("unpack past 2^32 bytes", |g, c, _| {
        unpack_groups::huge_sum(g, c)
    }),
    ("a bad code at every place", place_groups::every_code),
    ("the first of two bad codes", place_groups::two_codes),
    ("bad codes far behind", place_groups::far_codes),
    ("no bad code", place_groups::no_codes),
    ("unpack the wrong length", length_groups::counted),
    ("unpack without a part", length_groups::without_a_part),
    ("pack every short list", |g, c, _| {
        pack_groups::all_lists(g, c)
    }),
    ("pack every run length", |g, c, _| {
        pack_groups::run_lengths(g, c)
    }),
    ("pack at the edges of a look", |g, c, _| {
        pack_groups::looks(g, c)
    }),
    ("pack random runs", pack_groups::random_runs),
    ("pack random bytes", pack_groups::random_bytes),
    ("pack whole images", pack_groups::whole_images),
    ("pack the longest page", pack_groups::longest_page),
    ("round trips", |g, _, r| general_groups::round_trips(g, r)),
    ("nothing stood before", |g, _, r| {
        general_groups::nothing_before(g, r)
    }),
    ("steps of P1 to P9", |g, c, _| step_groups::examples(g, c)),
    ("steps of every short list", |g, c, _| {
        step_groups::all_lists(g, c)
    }),
    ("steps of every run length", |g, c, _| {
        step_groups::run_lengths(g, c)
    }),
    ("steps of long runs", |g, c, _| step_groups::long_runs(g, c)),
    ("steps of random runs", step_groups::random_runs),
    ("steps of random bytes", step_groups::random_bytes),
    ("steps of whole pages", step_groups::pages),
    ("steps joined", |g, _, r| step_groups::joined(g, r)),
    ("no step", step_groups::refused),
];

fn main() -> ExitCode {
    let mut report = Report::new(LEAST_INPUTS_PACKED);
    let check = &mut PackingChecker::new(1);
    let rng = &mut Rng::new(2);
    for (name, run) in GROUPS {
        report.group(name, |group| run(group, check, rng));
    }
    report.fact("every answer seen", general_groups::answers_seen(check));
    report.fact("every case seen", step_groups::cases_seen(check));
    report.finish()
}
