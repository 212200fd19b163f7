//! Compares the page that a view of the library returns with the reference, every byte of it, and with what `snap_view`
//! says of the same input.
#![deny(unsafe_code)]

#[path = "../ffi_view.rs"]
mod ffi_view;
#[path = "../views/mod.rs"]
mod views;

use compare::report::Report;
use reference::machine::Attachment::{self, Interface1, Mgt, None as Bare};
use reference::machine::Model::{self, K128, K48};
use reference::memory::Rng;
use std::process::ExitCode;
use views::checks::ViewChecker;
use views::groups;
use views::sources::Sources;

/// Calls that a run must at least make.
const LEAST_CALLS: u64 = 500_000;

const MACHINES: [(&str, (Model, Attachment)); 6] = [
    ("every page of a 48K", (K48, Bare)),
    ("every page of a 48K with Interface 1", (K48, Interface1)),
    ("every page of a 48K with MGT", (K48, Mgt)),
    ("every page of a 128K", (K128, Bare)),
    ("every page of a 128K with Interface 1", (K128, Interface1)),
    ("every page of a 128K with MGT", (K128, Mgt)),
];

fn main() -> ExitCode {
    let mut report = Report::new(LEAST_CALLS);
    let check = &mut ViewChecker::new(1);
    let rng = &mut Rng::new(2);
    let sources = &Sources::new(3);
    report.fact("every page differs", sources.pages_differ());
    for (name, machine) in MACHINES {
        report.group(name, |g| {
            groups::every_page(g, check, sources, rng, machine)
        });
    }
    report.group("view_page, every header byte", |g| {
        groups::every_header_byte(g, check, sources, rng)
    });
    report.group("view_page, every value of byte 37", |g| {
        groups::sound(g, check, sources, rng)
    });
    report.group("outputs of every kind of length", |g| {
        groups::outputs(g, check, sources, rng)
    });
    report.group("snap_view points at the page", |g| {
        groups::pointed_at(g, check, sources, rng)
    });
    report.group("nothing stood before", |g| {
        groups::nothing_before(g, sources, rng)
    });
    report.fact("every page given", check.pages_given());
    report.fact("every number seen", check.numbers_seen());
    report.finish()
}
