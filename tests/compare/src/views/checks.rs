//! One page copied out by the library, compared with the reference and with what `snap_view` says of the same input.

use super::sources::ViewInput;
use crate::ffi_view;
use compare::calls::{answer, note, outcome};
use compare::ffi_snapshot;
use compare::lent::LentPart;
use compare::report::{hex, Group, Outcome};
use reference::journal::{view, View};
use reference::memory::{Rng, PAGE};
use std::collections::BTreeMap;

/// Every number of a view.
const VIEW_NUMBERS: [u32; 5] = [0, 20, 21, 30, 31];

/// Every page of each model, by the length of its ROM.
const PAGES: [(usize, &[u8]); 2] = [
    (PAGE, &[0, 2, 5, 8]),
    (2 * PAGE, &[0, 1, 2, 3, 4, 5, 6, 7, 8, 9]),
];

/// Makes the output dirty before every call, and counts what was answered.
pub struct ViewChecker {
    fills: Rng,
    out: LentPart,
    due: Vec<u8>,
    /// How often `snap_view` answered each number.
    numbers: BTreeMap<u32, u64>,
    /// How often each page was given with a ROM of each length.
    pages: BTreeMap<(usize, u8), u64>,
}

impl ViewChecker {
    pub fn new(seed: u64) -> ViewChecker {
        ViewChecker {
            fills: Rng::new(seed),
            out: LentPart::new(0, 0),
            due: Vec::new(),
            numbers: BTreeMap::new(),
            pages: BTreeMap::new(),
        }
    }

    /// One page into an output of `room` bytes, and the view of it: length, number and every byte as the reference has them.
    pub fn page(&mut self, group: &mut Group, from: ViewInput, page: u8, room: usize) -> Outcome {
        let (rom, area) = (from.rom.bytes.len(), from.area.bytes.len());
        let (number, part) = view(&from.header.bytes, rom, area, page);
        let due = from.bytes(part).ok_or("the reference itself")?;
        let mut wrong = self.copy_out(group, from, page, room, due);
        let (given, shown) = shown(from, page);
        *self.numbers.entry(given).or_default() += 1;
        answer(&mut wrong, given, number);
        if shown != part {
            wrong.push(format!("snap_view says {shown:?}, should be {part:?}"));
        }
        tell(wrong, from, page, room)
    }

    /// One page and the view of it, by the library alone: the page is what the view points at.
    pub fn pointed_at(&mut self, group: &mut Group, from: ViewInput, page: u8) -> Outcome {
        let (_, shown) = shown(from, page);
        let wrong = match from.bytes(shown) {
            Some(due) => self.copy_out(group, from, page, PAGE, due),
            None => vec![format!("snap_view says {shown:?}")],
        };
        tell(wrong, from, page, PAGE)
    }

    /// What is wrong after a page was copied out that should be `due`, if anything.
    fn copy_out(
        &mut self,
        group: &mut Group,
        from: ViewInput,
        page: u8,
        room: usize,
        due: &[u8],
    ) -> Vec<String> {
        group.inputs += 1;
        self.lend(due, room);
        let given = ffi_view::page(from.lent(), page, self.out.part_mut());
        if given > 0 {
            let rom = from.rom.bytes.len();
            *self.pages.entry((rom, page)).or_default() += 1;
        }
        let mut wrong = Vec::new();
        if given != due.len() as u64 {
            wrong.push(format!("length {given}, should be {}", due.len()));
        }
        note(&mut wrong, "output", self.out.difference(&self.due));
        wrong
    }

    /// Lends an output in which every byte is another one than it should be after the call.
    fn lend(&mut self, page: &[u8], room: usize) {
        self.due.clear();
        if page.len() <= room {
            self.due.extend(page);
        }
        self.due.resize(room, 0);
        self.out.renew(room, self.fills.word());
        let other = self.fills.byte().max(1);
        for (byte, due) in self.out.part_mut().iter_mut().zip(&self.due) {
            *byte = due ^ other;
        }
    }

    /// Every page of both models was given, and no other.
    pub fn pages_given(&self) -> Outcome {
        let of_rom =
            |(rom, pages): (usize, &'static [u8])| pages.iter().map(move |page| (rom, *page));
        let due: Vec<_> = PAGES.into_iter().flat_map(of_rom).collect();
        let given: Vec<_> = self.pages.keys().copied().collect();
        match given == due {
            true => Ok(()),
            false => Err(format!("length of ROM and page: {given:?}")),
        }
    }

    /// Prints the counts. Every number was answered, and no other.
    pub fn numbers_seen(&self) -> Outcome {
        let counts = self.numbers.iter();
        let list: Vec<String> = counts.map(|(n, count)| format!("{n}: {count}")).collect();
        println!("    view  {}", list.join(", "));
        let seen: Vec<u32> = self.numbers.keys().copied().collect();
        match seen == VIEW_NUMBERS {
            true => Ok(()),
            false => Err(format!("{seen:?}, should be {VIEW_NUMBERS:?}")),
        }
    }
}

/// The number of `snap_view`, and the part it says.
fn shown(from: ViewInput, page: u8) -> (u32, View) {
    let mut part = View {
        in_rom: 0xA5,
        start: u64::MAX / 3,
        length: u64::MAX / 5,
    };
    let (in_rom, start, length) = (&mut part.in_rom, &mut part.start, &mut part.length);
    let number = ffi_snapshot::view(from.lent(), page, in_rom, start, length);
    (number, part)
}

fn tell(wrong: Vec<String>, from: ViewInput, page: u8, room: usize) -> Outcome {
    outcome(wrong).map_err(|what| {
        let (header, lengths) = (hex(&from.header.bytes), from.lengths());
        format!("page {page} into {room} bytes: {what}: header {header}, {lengths}")
    })
}
