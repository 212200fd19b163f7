//! Reading stored files, and writing their machines and memories.

use super::{theirs, Direction, StoredFile, Timed, Who};
use crate::ffi_snapshot;
use bench::timing::Contender;
use reference::machine::HEADER;
use reference::memory::{Rng, MEMORY};
use reference::packing::{Ordinary, Wordwise};
use reference::z80::{direct, LONGEST_FILE};
use std::cell::RefCell;
use std::hint::black_box;

type ReadCall = fn(&[u8], &mut [u8], &mut [u8], &mut u64) -> u32;
type WriteCall = fn(&[u8], &[u8], &mut [u8], &mut u64) -> u32;

const READERS: [(Who, ReadCall); 3] = [
    (Who::Library, ffi_snapshot::read),
    (Who::Ordinary, direct::read_bytes::<Ordinary>),
    (Who::Wordwise, direct::read_bytes::<Wordwise>),
];

const WRITERS: [(Who, WriteCall); 3] = [
    (Who::Library, ffi_snapshot::write),
    (Who::Ordinary, direct::write_bytes::<Ordinary>),
    (Who::Wordwise, direct::write_bytes::<Wordwise>),
];

/// All do the same work, or the times mean nothing.
pub fn check(stored: &StoredFile) {
    let (header, memory) = (&stored.header[..], &stored.memory[..]);
    for (rubbish, (_, read)) in (1..).zip(READERS) {
        let (mut area, mut machine) = (vec![rubbish; MEMORY], vec![rubbish; HEADER]);
        let mut offset = rubbish.into();
        let answer = read(stored.file(), &mut area, &mut machine, &mut offset);
        assert_eq!((answer, offset), (0, 0));
        assert!(area == memory && machine == header, "files read differ");
        let damaged = [stored.file(), &[0]].concat();
        let answer = read(&damaged, &mut area, &mut machine, &mut offset);
        assert_eq!((answer, offset), (8, stored.file().len() as u64));
    }
    let (mut file, mut length) = (vec![0; LONGEST_FILE], 0);
    let plain = reference::z80::write_bytes(header, memory, &mut file, &mut length);
    assert_eq!(plain, 0);
    for (rubbish, (_, write)) in (1..).zip(WRITERS) {
        let (mut out, mut end) = (vec![rubbish; LONGEST_FILE], 0);
        assert_eq!(write(header, memory, &mut out, &mut end), 0);
        assert!(out == file && end == length, "files written differ");
    }
    theirs::check(stored, length as usize);
}

/// The area and the header that all contenders read into.
type ReadBuffers = RefCell<(Vec<u8>, Vec<u8>)>;

fn reader<'a>(files: &'a [StoredFile], to: &'a ReadBuffers, call: ReadCall) -> Contender<'a> {
    Box::new(move || {
        let (area, header) = &mut *to.borrow_mut();
        let mut offset = 0;
        for stored in files {
            let file = black_box(stored.file());
            black_box(call(file, black_box(area), black_box(header), &mut offset));
        }
    })
}

fn time_read(files: &[StoredFile], rng: &mut Rng) -> Option<Timed> {
    let to = RefCell::new((vec![0; MEMORY], vec![0; HEADER]));
    let ours = READERS.map(|(who, call)| (who, reader(files, &to, call)));
    timed(files, ours, theirs::reader(files), rng)
}

/// The output is shared by all contenders.
fn writer<'a>(
    files: &'a [StoredFile],
    out: &'a RefCell<Vec<u8>>,
    call: WriteCall,
) -> Contender<'a> {
    Box::new(move || {
        let (out, mut length) = (&mut *out.borrow_mut(), 0);
        for stored in files {
            let (header, memory) = (black_box(&stored.header), black_box(&stored.memory));
            black_box(call(header, memory, black_box(out), &mut length));
        }
    })
}

fn time_write(files: &[StoredFile], rng: &mut Rng) -> Option<Timed> {
    let out = RefCell::new(vec![0; LONGEST_FILE]);
    let ours = WRITERS.map(|(who, call)| (who, writer(files, &out, call)));
    timed(files, ours, theirs::writer(files), rng)
}

fn timed(
    files: &[StoredFile],
    ours: [(Who, Contender); 3],
    theirs: Option<Contender>,
    rng: &mut Rng,
) -> Option<Timed> {
    let theirs = theirs.map(|contender| (Who::Libspectrum, contender));
    let contenders = ours.into_iter().chain(theirs).collect();
    Some(Timed::new(files.len() * MEMORY, contenders, rng))
}

pub const READ: Direction = Direction {
    name: "read",
    what: "a file into memory",
    time: time_read,
};

pub const WRITE: Direction = Direction {
    name: "write",
    what: "memory into a file",
    time: time_write,
};
