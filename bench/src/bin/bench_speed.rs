//! Times packing, unpacking, reading and writing of the ten stored 128K files by the library, by the reference in
//! its ordinary and its word-wise form (the anchor) and by libspectrum, prints the ratios of the times, and draws
//! them. Explaining is timed beside the reference and beside reading. Takes the path of the drawing and the folder of
//! the files.
#![deny(unsafe_code)]

#[path = "../../../tests/compare/src/ffi_packing.rs"]
mod ffi_packing;
#[path = "../../../tests/compare/src/ffi_snapshot.rs"]
mod ffi_snapshot;
#[cfg(libspectrum)]
#[path = "../libspectrum.rs"]
mod libspectrum;
#[path = "../speed/mod.rs"]
mod speed;

use bench::timing::ROUNDS;
use bench::verdict::{at_least, at_most};
use reference::memory::Rng;
use speed::Who::{Library, Libspectrum, Ordinary, Wordwise};
use speed::{explain, packing, plot, table, z80, DirectionTimes};

/// The library's time over that of ordinary Rust.
const A10_TARGET: f64 = 1.50;

/// The library's time over that of word-wise Rust.
const UNPACK_TARGET: f64 = 0.85;
const PACK_TARGET: f64 = 0.90;
const FILE_TARGET: f64 = 1.20;
const READ_TARGET: f64 = 1.00;
const WRITE_TARGET: f64 = 1.00;

/// libspectrum's time over the library's.
const READ_LEAD: f64 = 5.0;
const WRITE_LEAD: f64 = 3.0;

fn judge_packing([unpack, pack]: &[DirectionTimes; 2]) {
    let what =
        "A10, unpacking the packed blocks of ten 128K files from libspectrum, to ordinary Rust";
    at_most(what, known(unpack.ratio(Library, Ordinary)), A10_TARGET);
    for (way, target) in [(unpack, UNPACK_TARGET), (pack, PACK_TARGET)] {
        let name = way.direction.name;
        let all = known(way.ratio(Library, Wordwise));
        at_most(&format!("{name}, all ten, to word-wise Rust"), all, target);
        let slowest = known(way.highest_ratio(Library, Wordwise));
        let what = format!("{name}, slowest file, to word-wise Rust");
        at_most(&what, slowest, FILE_TARGET);
    }
}

fn judge_z80([read, write]: &[DirectionTimes; 2]) {
    for (way, most, lead) in [
        (read, READ_TARGET, READ_LEAD),
        (write, WRITE_TARGET, WRITE_LEAD),
    ] {
        let name = way.direction.name;
        let ratio = known(way.ratio(Library, Wordwise));
        at_most(&format!("{name}, to word-wise Rust"), ratio, most);
        let what = format!("{name}, times as fast as libspectrum");
        match way.ratio(Libspectrum, Library) {
            Some(ratio) => at_least(&what, ratio, lead),
            None => println!("{what}: missing, libspectrum is not installed"),
        }
    }
}

/// A ratio that is not known reaches no target.
fn known(ratio: Option<f64>) -> f64 {
    ratio.unwrap_or(f64::NAN)
}

fn main() {
    let mut given = std::env::args().skip(1);
    let drawing = given.next().unwrap_or("target/speed.svg".into());
    let files = speed::all(&given.next().unwrap_or("tests/files".into()));
    files.iter().for_each(packing::check);
    files.iter().for_each(z80::check);
    files.iter().for_each(explain::check);
    let rng = &mut Rng::new(3);
    println!("microseconds of the library per file and over all ten, medians of {ROUNDS} interleaved runs;");
    println!("then ratios to word-wise Rust, medians of the ratio in each run");
    let ways = [packing::UNPACK, packing::PACK];
    let packed = table::measure(ways, &[Library, Ordinary], &files, rng);
    println!("nanoseconds per byte of memory over all ten");
    table::costs(&packed);
    judge_packing(&packed);
    println!();
    let ways = [z80::READ, z80::WRITE];
    let stored = table::measure(ways, &[Library, Ordinary, Libspectrum], &files, rng);
    judge_z80(&stored);
    println!();
    println!("microseconds to explain a file; ratios to Rust, and to the library's reading of the same file");
    explain::measure(&files, rng);
    let ([unpack, pack], [read, write]) = (&packed, &stored);
    let svg = plot::draw(&files, [unpack, pack, read, write]);
    std::fs::write(&drawing, svg).expect(&drawing);
}
