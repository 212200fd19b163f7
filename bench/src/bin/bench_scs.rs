//! Times reading and writing of a 48K and a 128K SCS file by the library, and prints the ratio to a memcpy of the same
//! memory between the same buffers: such a file is little more than its memory.
#![deny(unsafe_code)]

#[path = "../../../tests/compare/src/ffi_snapshot.rs"]
mod ffi_snapshot;
#[path = "../scs/mod.rs"]
mod scs;

use bench::timing::{times, Contender, ROUNDS};
use bench::verdict::at_most;
use reference::machine::Model;
use reference::memory::Rng;
use scs::ScsWork;

/// The library's time over that of a memcpy.
const COPY_TARGET: f64 = 2.00;

/// Times one call beside its copies, prints its line, and gives its ratios to them.
fn measure(name: &str, mut contenders: Vec<Contender>, rng: &mut Rng) -> Vec<f64> {
    let times = times(&mut contenders, rng);
    let ratios = (1..contenders.len()).map(|copy| times.ratio(0, copy));
    let ratios: Vec<f64> = ratios.collect();
    let micros = |which| times.median(which) / 1000.0;
    let (library, copy, ratio) = (micros(0), micros(1), ratios[0]);
    println!("{name:<16} {library:>8.2} {copy:>8.2} {ratio:>6.2}");
    ratios
}

fn main() {
    let rng = &mut Rng::new(7);
    println!("microseconds for an SCS file, medians of {ROUNDS} interleaved runs");
    println!("{:<16} {:>8} {:>8} {:>6}", "", "library", "memcpy", "ratio");
    let mut all = Vec::new();
    for (model, name) in [(Model::K48, "48K"), (Model::K128, "128K")] {
        let work = ScsWork::new(model);
        work.check();
        let mut read = vec![work.read(), work.copy_in()];
        if model == Model::K48 {
            read.push(work.copy_in_and_clear());
        }
        let read = measure(&format!("read {name}"), read, rng);
        let write = vec![work.write(), work.copy_out()];
        let write = measure(&format!("write {name}"), write, rng);
        all.push((name, read, write));
    }
    for (name, read, write) in all {
        if let [_, ratio] = read[..] {
            println!("SCS {name}, read, to a memcpy with the other pages cleared: {ratio:.2}");
        }
        for (way, ratios) in [("read", read), ("write", write)] {
            let what = format!("SCS {name}, {way}, to a memcpy of its memory");
            at_most(&what, ratios[0], COPY_TARGET);
        }
    }
}
