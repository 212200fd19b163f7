//! Looking at a machine over its header's bytes: its model, a register pair, the place of an address. Each answers its
//! number first; where that refuses, every figure is 0.

use super::{own_header, page_at, Attachment, Machine, Model, PAIRS};
use crate::memory::PAGE;
use crate::refusal::{number, Refusal};

#[derive(Debug, Clone, Copy, Default, PartialEq, Eq)]
pub struct MachineKind {
    /// 0 for 48K, 1 for 128K.
    pub model: u8,
    /// 0 for none, 1 for Interface I, 2 for M.G.T.
    pub attachment: u8,
}

#[derive(Debug, Clone, Copy, Default, PartialEq, Eq)]
pub struct Location {
    /// 1 for ROM, where page and offset are 0.
    pub in_rom: u8,
    pub page: u8,
    pub offset: u16,
}

pub fn kind(header: &[u8]) -> (u32, MachineKind) {
    answered(machine(header).map(|machine| MachineKind {
        model: match machine.model {
            Model::K48 => 0,
            Model::K128 => 1,
        },
        attachment: match machine.attachment {
            Attachment::None => 0,
            Attachment::Interface1 => 1,
            Attachment::Mgt => 2,
        },
    }))
}

/// The value of a register pair.
pub fn pair(header: &[u8], pair: u8) -> (u32, u16) {
    answered(machine(header).and_then(|machine| match pair {
        PAIRS.. => Err(Refusal::Pair),
        pair => Ok(machine.pair(pair)),
    }))
}

/// Where an address leads as paging is now.
pub fn location(header: &[u8], address: u16) -> (u32, Location) {
    answered(machine(header).map(|machine| {
        let rom = Location {
            in_rom: 1,
            ..Location::default()
        };
        let page = page_at(machine.model, machine.paging, address);
        page.map_or(rom, |page| Location {
            in_rom: 0,
            page,
            offset: address % PAGE as u16,
        })
    }))
}

fn machine(header: &[u8]) -> Result<Machine, Refusal> {
    own_header(header).ok_or(Refusal::Machine)
}

fn answered<T: Default>(result: Result<T, Refusal>) -> (u32, T) {
    (number(&result), result.unwrap_or_default())
}

#[cfg(test)]
mod tests {
    use super::super::{header, HEADER};
    use super::*;

    /// The blank machine's header with another mode and last OUT.
    fn bytes(mode: u8, last_out: u8) -> [u8; HEADER] {
        let mut bytes = header(&Machine::blank());
        (bytes[34], bytes[35]) = (mode, last_out);
        bytes
    }

    #[test]
    fn every_mode() {
        let modes = [
            (0, 0, 0),
            (1, 0, 1),
            (3, 0, 2),
            (4, 1, 0),
            (5, 1, 1),
            (6, 1, 2),
        ];
        for (mode, model, attachment) in modes {
            assert_eq!(
                kind(&bytes(mode, 0)),
                (0, MachineKind { model, attachment })
            );
        }
        for mode in [2, 7, 12, 255] {
            assert_eq!(kind(&bytes(mode, 0)), (20, MachineKind::default()));
        }
    }

    #[test]
    fn every_pair_stands_where_the_format_has_it() {
        let mut bytes = bytes(0, 0);
        for at in (0..6).chain(8..10).chain(13..27).chain(32..34) {
            bytes[at] = at as u8;
        }
        let values = [
            0x0001, 0x0302, 0x0E0D, 0x0504, 0x1516, 0x100F, 0x1211, 0x1413, 0x1A19, 0x1817, 0x0908,
            0x2120,
        ];
        for (number, value) in values.into_iter().enumerate() {
            assert_eq!(pair(&bytes, number as u8), (0, value));
        }
        for number in PAIRS..=255 {
            assert_eq!(pair(&bytes, number), (32, 0));
        }
    }

    #[test]
    fn places_at_the_borders() {
        let ram = |page, offset| Location {
            in_rom: 0,
            page,
            offset,
        };
        let rom = Location {
            in_rom: 1,
            ..Location::default()
        };
        for (mode, last_out, top) in [(0, 0, 0), (4, 0, 0), (5, 0x17, 7), (6, 0xF3, 3)] {
            let header = bytes(mode, last_out);
            for (address, place) in [
                (0, rom),
                (0x3FFF, rom),
                (0x4000, ram(5, 0)),
                (0x7FFF, ram(5, 0x3FFF)),
                (0x8000, ram(2, 0)),
                (0xBFFF, ram(2, 0x3FFF)),
                (0xC000, ram(top, 0)),
                (0xFFFF, ram(top, 0x3FFF)),
            ] {
                assert_eq!(location(&header, address), (0, place));
            }
        }
    }

    #[test]
    fn the_header_is_refused_first() {
        let good = bytes(4, 0);
        let mut damaged = good;
        damaged[58] = 1;
        let longer = [&good[..], &[0]].concat();
        let out_on_48k = bytes(0, 1);
        for header in [&good[..85], &longer, &[], &damaged, &out_on_48k] {
            assert_eq!(kind(header), (20, MachineKind::default()));
            assert_eq!(pair(header, 11), (20, 0));
            assert_eq!(pair(header, 12), (20, 0));
            for address in [0, 0xFFFF] {
                assert_eq!(location(header, address), (20, Location::default()));
            }
        }
    }
}
