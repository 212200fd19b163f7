//! Times a correction, an undo and a redo by the library at the first and at the last step of a full log, and
//! prints the ratio of the two, and of the last to filling 131,072 bytes: none of them passes over the area.
#![deny(unsafe_code)]

#[path = "../../../tests/compare/src/ffi_snapshot.rs"]
mod ffi_snapshot;
#[path = "../journal/mod.rs"]
mod journal;

use bench::timing::times_of;
use bench::verdict::at_most;
use journal::{contender, fill, FullLog, CALLS, STEPS, TIMED_CALLS};
use reference::memory::{Rng, MEMORY};
use std::time::Duration;

/// The time at step 4,096 over the time at step 1.
const STEP_TARGET: f64 = 1.10;

/// The time of a call over the time of filling an area.
const AREA_TARGET: f64 = 0.25;

/// Many short measurements: few of them are interrupted.
const ROUNDS: usize = 1_000;
const LEAST: Duration = Duration::from_micros(5);

fn main() {
    let rng = &mut Rng::new(5);
    let last = STEPS as u64;
    let per_call = |time: f64| time / CALLS as f64;
    println!("nanoseconds per call, medians of {ROUNDS} interleaved runs");
    println!(
        "{:<16} {:>8} {:>10} {:>6} {:>10} {:>8}",
        "", "step 1", "step 4,096", "ratio", "area fill", "to fill"
    );
    let (mut steps, mut areas): (f64, f64) = (0.0, 0.0);
    for (name, kind) in TIMED_CALLS {
        FullLog::check(kind, 1);
        FullLog::check(kind, last);
        let mut contenders = [contender(kind, 1), contender(kind, last), fill()];
        let times = times_of(ROUNDS, LEAST, &mut contenders, rng);
        let (first, last) = (per_call(times.median(0)), per_call(times.median(1)));
        let fill = times.median(2);
        let (ratio, to_fill) = (last / first, last / fill);
        println!("{name:<16} {first:>8.1} {last:>10.1} {ratio:>6.2} {fill:>10.1} {to_fill:>8.3}");
        (steps, areas) = (steps.max(ratio), areas.max(to_fill));
    }
    at_most("step 4,096 to step 1, the slowest", steps, STEP_TARGET);
    let what = format!("a call to a fill of {MEMORY} bytes, the slowest");
    at_most(&what, areas, AREA_TARGET);
}
