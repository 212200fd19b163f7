//! A view of a page.

use super::seen::{CountedFunction, NumberCounts};
use super::{answer, outcome};
use crate::ffi_snapshot::{self as ffi, Viewed};
use crate::lent::LentPart;
use reference::journal::{view, View};
use std::hint::black_box;

/// What lies beside and in the three numbers before a call.
const DIRTY: (u8, u64) = (0xA5, 0xA5A5_5A5A_A5A5_5A5A);

/// One view, its three numbers between cells that must stay; its answer.
pub fn call(
    seen: &mut NumberCounts,
    header: &LentPart,
    rom: &LentPart,
    area: &LentPart,
    page: u8,
) -> Result<u32, String> {
    let (rom_length, area_length) = (rom.part().len(), area.part().len());
    let (number, expected) = view(header.part(), rom_length, area_length, page);
    let (mut small, mut cells) = ([DIRTY.0; 3], [DIRTY.1; 5]);
    let from = Viewed {
        header: header.part(),
        rom: rom.part(),
        area: area.part(),
    };
    let [_, start, _, length, _] = &mut cells;
    let given = ffi::view(from, page, &mut small[1], start, length);
    seen.add(CountedFunction::View, given);
    let (small, cells) = (black_box(small), black_box(cells));
    let part = View {
        in_rom: small[1],
        start: cells[1],
        length: cells[3],
    };
    let mut wrong = Vec::new();
    answer(&mut wrong, given, number);
    if part != expected {
        wrong.push(format!("{part:?}, should be {expected:?}"));
    }
    if [small[0], small[2]] != [DIRTY.0; 2] || [cells[0], cells[2], cells[4]] != [DIRTY.1; 3] {
        wrong.push("a cell beside the three numbers was changed".into());
    }
    let lengths = format!("ROM of {rom_length} bytes, area of {area_length}");
    let tell = |what| format!("page {page}, {lengths}: {what}");
    outcome(wrong).map(|()| number).map_err(tell)
}
