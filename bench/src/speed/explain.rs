//! Explaining stored files, beside reading the same files by the library, and beside the reference, which only counts
//! packed data too.

use super::StoredFile;
use crate::ffi_snapshot;
use bench::timing::{times, Contender, Times};
use reference::machine::HEADER;
use reference::memory::{Rng, MEMORY};
use reference::packing::{Ordinary, Wordwise};
use reference::z80::{direct, ExplainFigures};
use std::hint::black_box;

type Explain = fn(&[u8]) -> ExplainFigures;

/// The library first.
const EXPLAINERS: [Explain; 3] = [
    library_explain,
    direct::explain::<Ordinary>,
    direct::explain::<Wordwise>,
];

/// What the library's time is set against, in the order of the contenders after it.
const BESIDE: [&str; 3] = ["ordinary", "word-wise", "read"];

fn library_explain(file: &[u8]) -> ExplainFigures {
    let mut told = ExplainFigures::default();
    let (offset, block) = (&mut told.offset, &mut told.block);
    told.number = ffi_snapshot::explain(file, offset, block, &mut told.found, &mut told.due);
    told
}

/// All do the same work, or the times mean nothing.
pub fn check(stored: &StoredFile) {
    let file = stored.file();
    let cut = &file[..file.len() - 1];
    let more = [file, &[0]].concat();
    for file in [file, cut, &more, &file[..HEADER]] {
        let [told, others @ ..] = EXPLAINERS.map(|explain| explain(file));
        assert!(others.iter().all(|other| *other == told), "{told:?}");
    }
    let good = EXPLAINERS.map(|explain| explain(file));
    assert_eq!(good, [ExplainFigures::default(); 3]);
}

fn explainer(files: &[StoredFile], call: Explain) -> Contender<'_> {
    Box::new(move || {
        for stored in files {
            black_box(call(black_box(stored.file())));
        }
    })
}

fn reader(files: &[StoredFile]) -> Contender<'_> {
    let (mut area, mut header) = (vec![0; MEMORY], vec![0; HEADER]);
    Box::new(move || {
        let mut offset = 0;
        for stored in files {
            let file = black_box(stored.file());
            let (area, header) = (black_box(&mut area), black_box(&mut header));
            black_box(ffi_snapshot::read(file, area, header, &mut offset));
        }
    })
}

fn time(files: &[StoredFile], rng: &mut Rng) -> Times {
    let mut contenders = Vec::from(EXPLAINERS.map(|call| explainer(files, call)));
    contenders.push(reader(files));
    times(&mut contenders, rng)
}

/// Prints a line for each file and one for all: the library's microseconds, then its ratios to the others.
pub fn measure(files: &[StoredFile], rng: &mut Rng) {
    let names = BESIDE.map(|name| format!(" {:>11}", format!("to {name}")));
    println!("{:<16} {:>12}{}", "", "explain us", names.concat());
    for stored in files {
        line(&stored.name, &time(std::slice::from_ref(stored), rng));
    }
    line("all ten", &time(files, rng));
}

fn line(name: &str, times: &Times) {
    let micros = times.median(0) / 1000.0;
    let ratios = [1, 2, 3].map(|other| format!(" {:>11.2}", times.ratio(0, other)));
    println!("{name:<16} {micros:>12.1}{}", ratios.concat());
}
