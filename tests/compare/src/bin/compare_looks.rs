//! Compares the looks of the library at a machine (its model, a register pair, the place of an address) with the
//! reference, and its version with that of the header file.
#![deny(unsafe_code)]

#[path = "../looks/mod.rs"]
mod looks;

use compare::ffi_snapshot::version;
use compare::report::{Group, Outcome, Report};
use looks::checks::LookChecker;
use looks::groups;
use reference::machine::Attachment::{self, Interface1, Mgt, None as Bare};
use reference::machine::Model::{self, K128, K48};
use reference::memory::Rng;
use std::process::ExitCode;

/// Calls that a run must at least make.
const LEAST_CALLS: u64 = 9_000_000;

const MACHINES: [(&str, (Model, Attachment)); 6] = [
    ("looks at a 48K", (K48, Bare)),
    ("looks at a 48K with Interface 1", (K48, Interface1)),
    ("looks at a 48K with MGT", (K48, Mgt)),
    ("looks at a 128K", (K128, Bare)),
    ("looks at a 128K with Interface 1", (K128, Interface1)),
    ("looks at a 128K with MGT", (K128, Mgt)),
];

type Run = fn(&mut Group, &mut LookChecker, &mut Rng) -> Outcome;

const GROUPS: [(&str, Run); 9] = [
    ("machines of the stored files", groups::stored),
    ("every address", groups::every_address),
    ("every last OUT", groups::every_last_out),
    ("every value of every pair", groups::every_value),
    ("every bit of a header", groups::every_bit),
    ("every value of every header byte", groups::every_byte),
    ("every value of byte 37", groups::sound),
    ("headers of every length", groups::every_length),
    ("changed headers and noise", groups::noise),
];

/// The library says the version that the header file says.
fn version_is_told() -> Outcome {
    let text = include_str!("../../../../include/snapshot.h");
    let mut lines = text.lines();
    let told = lines.find_map(|line| line.strip_prefix("#define SNAP_VERSION "));
    match told == Some(&format!("{}u", version())) {
        true => Ok(()),
        false => Err(format!("{}, the header file has {told:?}", version())),
    }
}

fn main() -> ExitCode {
    let mut report = Report::new(LEAST_CALLS);
    let check = &mut LookChecker::new(1);
    let rng = &mut Rng::new(2);
    report.fact("the version is the header file's", version_is_told());
    for (name, kind) in MACHINES {
        report.group(name, |group| groups::machines(group, check, rng, kind));
    }
    for (name, run) in GROUPS {
        report.group(name, |group| run(group, check, rng));
    }
    report.fact("every figure told", check.seen.figures());
    report.fact("every number seen", check.seen.numbers());
    report.finish()
}
