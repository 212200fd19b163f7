//! Unpacking the packed blocks of files as they are stored, and packing every page of their memory. The floor
//! is a memcpy of the same pages and a memset of as many bytes.

use super::files::Packed;
use super::{Direction, StoredFile, Timed, Who};
use crate::ffi_packing;
use bench::timing::Contender;
use reference::memory::{Rng, PAGE};
use reference::packing::{pack_into, packed, unpack_into, wordwise, UnpackAnswer, ED};
use std::cell::RefCell;
use std::hint::black_box;

/// Room for any packed page.
const ROOM: usize = 27_306;

type Unpack = fn(&[u8], &mut [u8]) -> UnpackAnswer;
type Pack = fn(&[u8], &mut [u8]) -> Option<usize>;

const UNPACKERS: [(Who, Unpack); 3] = [
    (Who::Library, library_unpack),
    (Who::Ordinary, unpack_into),
    (Who::Wordwise, wordwise::unpack_into),
];

const PACKERS: [(Who, Pack); 3] = [
    (Who::Library, library_pack),
    (Who::Ordinary, pack_into),
    (Who::Wordwise, wordwise::pack_into),
];

fn library_unpack(block: &[u8], part: &mut [u8]) -> UnpackAnswer {
    let (mut place, mut found) = (0, 0);
    match ffi_packing::unpack(block, part, &mut place, &mut found) {
        0 => UnpackAnswer::Good,
        1 => UnpackAnswer::Malformed(place as usize),
        _ => UnpackAnswer::WrongLength(found as usize),
    }
}

fn library_pack(page: &[u8], part: &mut [u8]) -> Option<usize> {
    let mut length = 0;
    let answer = ffi_packing::pack(page, part, &mut length);
    (answer == 0).then_some(length as usize)
}

fn copy(page: &[u8], part: &mut [u8]) {
    part[..PAGE].copy_from_slice(page);
}

fn fill(page: &[u8], part: &mut [u8]) {
    part[..PAGE].fill(page[0]);
}

/// All do the same work, or the times mean nothing.
pub fn check(stored: &StoredFile) {
    for Packed { block, page } in stored.packed() {
        for (rubbish, (_, unpack)) in (1..).zip(UNPACKERS) {
            let mut part = vec![rubbish; PAGE];
            assert_eq!(unpack(block, &mut part), UnpackAnswer::Good);
            assert!(part == page, "unpacked pages differ");
            let damaged = [block, &[0, ED, ED, 0, 0]].concat();
            let told = UnpackAnswer::Malformed(block.len() + 1);
            assert_eq!(unpack(&damaged, &mut part), told);
            let longer = [block, &[0; 9]].concat();
            let told = UnpackAnswer::WrongLength(PAGE + 9);
            assert_eq!(unpack(&longer, &mut part), told);
        }
    }
    for page in stored.pages() {
        let mut code = packed(page);
        let length = code.len();
        assert_eq!(ffi_packing::packed_len(page), length as u64);
        code.resize(ROOM, 0);
        for (rubbish, (_, pack)) in (1..).zip(PACKERS) {
            let mut part = vec![rubbish; ROOM];
            assert_eq!(pack(page, &mut part), Some(length));
            assert!(part == code, "packed pages differ");
        }
    }
}

/// What the calls work on and the pages of the floor, and the part that all of them share.
struct Work<'a> {
    sources: Vec<&'a [u8]>,
    pages: Vec<&'a [u8]>,
    part: RefCell<Vec<u8>>,
}

impl Work<'_> {
    fn contender<'a, T: 'a>(
        &'a self,
        sources: &'a [&[u8]],
        call: fn(&[u8], &mut [u8]) -> T,
    ) -> Contender<'a> {
        Box::new(move || {
            let mut part = self.part.borrow_mut();
            for source in sources {
                black_box(call(black_box(source), black_box(&mut part[..])));
            }
        })
    }

    fn timed<T: 'static>(
        &self,
        calls: [(Who, fn(&[u8], &mut [u8]) -> T); 3],
        rng: &mut Rng,
    ) -> Timed {
        let calls = calls.map(|(who, call)| (who, self.contender(&self.sources, call)));
        let mut contenders = Vec::from(calls);
        contenders.push((Who::Memcpy, self.contender(&self.pages, copy)));
        contenders.push((Who::Memset, self.contender(&self.pages, fill)));
        Timed::new(self.pages.len() * PAGE, contenders, rng)
    }
}

fn time_unpack(files: &[StoredFile], rng: &mut Rng) -> Option<Timed> {
    let packed = || files.iter().flat_map(StoredFile::packed);
    let work = Work {
        sources: packed().map(|packed| packed.block).collect(),
        pages: packed().map(|packed| packed.page).collect(),
        part: RefCell::new(vec![0; PAGE]),
    };
    (!work.sources.is_empty()).then(|| work.timed(UNPACKERS, rng))
}

fn time_pack(files: &[StoredFile], rng: &mut Rng) -> Option<Timed> {
    let pages: Vec<&[u8]> = files.iter().flat_map(StoredFile::pages).collect();
    let work = Work {
        sources: pages.clone(),
        pages,
        part: RefCell::new(vec![0; ROOM]),
    };
    Some(work.timed(PACKERS, rng))
}

pub const UNPACK: Direction = Direction {
    name: "unpack",
    what: "the packed blocks of a file",
    time: time_unpack,
};

pub const PACK: Direction = Direction {
    name: "pack",
    what: "the eight pages of a file",
    time: time_pack,
};
