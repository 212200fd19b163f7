//! What is lent to a view: bytes between guards, and a copy of them that no call sees.

use compare::calls::{note, outcome};
use compare::ffi_snapshot::Viewed;
use compare::lent::LentPart;
use compare::report::Outcome;
use reference::journal::View;
use reference::machine::Model;
use reference::memory::{Rng, MEMORY, PAGE};

const ROMS: [usize; 7] = [
    0,
    PAGE - 1,
    PAGE,
    PAGE + 1,
    2 * PAGE - 1,
    2 * PAGE,
    2 * PAGE + 1,
];

const AREAS: [usize; 4] = [0, MEMORY - 1, MEMORY, MEMORY + 1];

pub struct Source {
    pub bytes: Vec<u8>,
    lent: LentPart,
}

impl Source {
    pub fn new(bytes: Vec<u8>, rng: &mut Rng) -> Source {
        let lent = LentPart::holding(&bytes, rng.word());
        Source { bytes, lent }
    }

    /// What is wrong with what was lent, if anything, after a call.
    fn changed(&self) -> Option<String> {
        self.lent.difference(&self.bytes)
    }
}

/// What a view looks at.
#[derive(Clone, Copy)]
pub struct ViewInput<'a> {
    pub header: &'a Source,
    pub rom: &'a Source,
    pub area: &'a Source,
}

impl<'a> ViewInput<'a> {
    pub fn lent(self) -> Viewed<'a> {
        Viewed {
            header: self.header.lent.part(),
            rom: self.rom.lent.part(),
            area: self.area.lent.part(),
        }
    }

    /// The bytes that a part stands for, if it lies in the ROM or in the area.
    pub fn bytes(self, part: View) -> Option<&'a [u8]> {
        let whole = match part.in_rom {
            0 => self.area,
            1 => self.rom,
            _ => return None,
        };
        let end = part.start.checked_add(part.length)?;
        whole.bytes.get(part.start as usize..end as usize)
    }

    /// No call has changed what was lent.
    pub fn unchanged(self) -> Outcome {
        let mut wrong = Vec::new();
        note(&mut wrong, "header", self.header.changed());
        note(&mut wrong, "ROM", self.rom.changed());
        note(&mut wrong, "area", self.area.changed());
        outcome(wrong)
    }

    /// The lengths, for a message.
    pub fn lengths(self) -> String {
        let [rom, area] = [self.rom, self.area].map(|source| source.bytes.len());
        format!("ROM of {rom} bytes, area of {area}")
    }
}

/// A ROM and an area of each length, random in every byte.
pub struct Sources {
    pub roms: Vec<Source>,
    pub areas: Vec<Source>,
}

impl Sources {
    pub fn new(seed: u64) -> Sources {
        let rng = &mut Rng::new(seed);
        let mut random = |length: usize| Source::new(rng.bytes(length), rng);
        Sources {
            roms: ROMS.map(&mut random).into(),
            areas: AREAS.map(&mut random).into(),
        }
    }

    /// The ROM of this length.
    pub fn rom(&self, length: usize) -> &Source {
        let mut all = self.roms.iter();
        all.find(|rom| rom.bytes.len() == length).expect("a length")
    }

    /// The area of the right length.
    pub fn area(&self) -> &Source {
        let mut all = self.areas.iter();
        all.find(|area| area.bytes.len() == MEMORY)
            .expect("a length")
    }

    /// A ROM and an area, three times in four of a right length.
    pub fn pick(&self, rng: &mut Rng) -> (&Source, &Source) {
        let rom = match rng.below(4) {
            0 => rng.pick(&ROMS),
            _ => rng.pick(&[PAGE, 2 * PAGE]),
        };
        let area = match rng.below(4) {
            0 => &self.areas[rng.below(AREAS.len())],
            _ => self.area(),
        };
        (self.rom(rom), area)
    }

    /// A header with a ROM and an area as a machine of this model needs.
    pub fn right<'a>(&'a self, header: &'a Source, model: Model) -> ViewInput<'a> {
        let rom = match model {
            Model::K48 => self.rom(PAGE),
            Model::K128 => self.rom(2 * PAGE),
        };
        let area = self.area();
        ViewInput { header, rom, area }
    }

    /// Every page that can be given differs from every other, from zeros, and from itself a byte further on.
    pub fn pages_differ(&self) -> Outcome {
        let right = [self.rom(PAGE), self.rom(2 * PAGE), self.area()];
        let zeros = vec![0; PAGE];
        let mut all: Vec<&[u8]> = right.iter().flat_map(|s| s.bytes.chunks(PAGE)).collect();
        if all.iter().any(|page| page[1..] == page[..PAGE - 1]) {
            return Err("a page is one byte all through".into());
        }
        all.push(&zeros);
        let count = all.len();
        all.sort_unstable();
        all.dedup();
        match all.len() == count {
            true => Ok(()),
            false => Err(format!("of {count} pages only {} differ", all.len())),
        }
    }
}
