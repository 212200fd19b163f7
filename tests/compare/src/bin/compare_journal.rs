//! Compares the journal of the library (corrections, undo, redo), its start and the view of a page with the
//! reference: lists of calls with the model, damaged logs and invented numbers with the rules of the log.
#![deny(unsafe_code)]

#[path = "../journal/mod.rs"]
mod journal;

use compare::calls::journal::JournalChecker;
use compare::report::{Group, Outcome, Report};
use journal::list_groups::with_log;
use journal::{fault_groups, header_groups, order_groups, start_groups, step_groups, view_groups};
use reference::memory::Rng;
use std::process::ExitCode;

/// Calls that a run must at least make.
const LEAST_CALLS: u64 = 1_000_000;

/// Lengths of logs, and the calls in lists with each.
const LOGS: [(usize, u64); 8] = [
    (0, 20_000),
    (10, 20_000),
    (11, 60_000),
    (110, 120_000),
    (45_055, 500_000),
    (45_056, 500_000),
    (45_057, 500_000),
    (60_000, 500_000),
];

type Run = fn(&mut Group, &mut JournalChecker, &mut Rng) -> Outcome;

const GROUPS: [(&str, Run); 21] = [
    ("examples", |g, c, _| start_groups::examples(g, c)),
    ("start logs of many lengths", |g, c, _| {
        start_groups::lengths(g, c)
    }),
    ("invented good steps", fault_groups::good),
    ("one fault in a step", fault_groups::single),
    ("two faults in a step", fault_groups::pairs),
    ("an OUT step on 48K", fault_groups::out_on_48k),
    ("undo and redo while locked", fault_groups::locked),
    ("random logs", fault_groups::random_logs),
    ("every tag", step_groups::tags),
    ("every length", step_groups::lengths),
    ("every index", step_groups::indexes),
    ("offsets", step_groups::offsets),
    ("old and new values", step_groups::values),
    ("every last byte", step_groups::last_bytes),
    ("order in corrections", order_groups::corrections),
    ("order in undo and redo", order_groups::moves),
    ("invented numbers", order_groups::invented_numbers),
    ("other buffers", order_groups::buffers),
    ("every header byte", header_groups::every_byte),
    ("every value of byte 37", header_groups::sound),
    ("changed headers", header_groups::changed),
];

fn main() -> ExitCode {
    let mut report = Report::new(LEAST_CALLS);
    let check = &mut JournalChecker::new(1);
    let rng = &mut Rng::new(2);
    for (length, calls) in LOGS {
        let name = format!("lists with a log of {length} bytes");
        report.group(&name, |group| with_log(group, check, rng, length, calls));
    }
    for (name, run) in GROUPS {
        report.group(name, |group| run(group, check, rng));
    }
    report.group("view every page", |g| {
        view_groups::every_page(g, check, rng)
    });
    report.group("view, every header byte", |g| {
        view_groups::every_header_byte(g, check, rng)
    });
    report.group("view, every value of byte 37", |g| {
        view_groups::sound(g, check, rng)
    });
    report.fact("every number seen", check.seen.all(LEAST_CALLS));
    report.finish()
}
