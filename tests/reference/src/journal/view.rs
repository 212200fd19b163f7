//! Where a page lies: a part of the ROM or of the area.

use crate::machine::{own_header, owns, Model};
use crate::memory::{MEMORY, PAGE};
use crate::refusal::{number, Refusal};

/// All three are 0 where the call is refused.
#[derive(Debug, Clone, Copy, Default, PartialEq, Eq)]
pub struct View {
    /// 1 for the ROM, 0 for the area.
    pub in_rom: u8,
    pub start: u64,
    pub length: u64,
}

/// The answer of a view, and the part.
pub fn view(header: &[u8], rom_length: usize, area_length: usize, page: u8) -> (u32, View) {
    let result = part(header, rom_length, area_length, page);
    (number(&result), result.unwrap_or_default())
}

fn part(header: &[u8], rom: usize, area: usize, page: u8) -> Result<View, Refusal> {
    let model = own_header(header).ok_or(Refusal::Machine)?.model;
    if area != MEMORY {
        return Err(Refusal::Area);
    }
    let rom_pages = match model {
        Model::K48 => 1,
        Model::K128 => 2,
    };
    if rom != rom_pages * PAGE {
        return Err(Refusal::Rom);
    }
    let (in_rom, number) = match page {
        8 => (1, 0),
        9 if model == Model::K128 => (1, 1),
        page if owns(model, page) => (0, page),
        _ => return Err(Refusal::Page),
    };
    Ok(View {
        in_rom,
        start: u64::from(number) * PAGE as u64,
        length: PAGE as u64,
    })
}
