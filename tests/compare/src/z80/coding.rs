//! Pages and packed data that stand for them, in the writer's coding and in odd ones.

use reference::memory::{images, Rng, PAGE};
use reference::packing::{packed, ED};

/// The longest data of a block that says its own length.
const LONGEST_DATA: usize = 0xFFFE;

/// The data of a block and the length that its head says.
#[derive(Clone)]
pub struct Coding {
    pub length: u16,
    pub data: Vec<u8>,
}

impl Coding {
    pub fn plain(page: &[u8]) -> Coding {
        Coding {
            length: 0xFFFF,
            data: page.to_vec(),
        }
    }

    pub fn packed(data: Vec<u8>) -> Coding {
        Coding {
            length: data.len() as u16,
            data,
        }
    }

    pub fn is_plain(&self) -> bool {
        self.length == 0xFFFF
    }
}

/// Codes that stand for `length` times one byte.
pub fn constant(length: usize, byte: u8) -> Vec<u8> {
    let mut data = [ED, ED, 255, byte].repeat(length / 255);
    let rest = (length % 255) as u8;
    if rest != 0 {
        data.extend([ED, ED, rest, byte]);
    }
    data
}

/// A coding that stands for `page`: codes of any count, plain stretches, single EDs where they may stand.
pub fn odd(page: &[u8], rng: &mut Rng) -> Vec<u8> {
    let mut data = Vec::new();
    let mut left = page;
    let mut after_ed = false;
    while let Some(&byte) = left.first() {
        let run = left.iter().take(255).take_while(|b| **b == byte).count();
        let must_code = byte == ED && left.get(1) == Some(&ED);
        let may_code = run > 20 || rng.once_in(6);
        let taken = if !after_ed && (must_code || may_code) {
            let part = 1 + rng.below(run);
            let taken = rng.pick(&[run, run, run, run, part, run.min(4), run.min(2)]);
            data.extend([ED, ED, taken as u8, byte]);
            after_ed = false;
            taken
        } else {
            data.push(byte);
            after_ed = byte == ED;
            1
        };
        left = &left[taken..];
    }
    if data.len() > LONGEST_DATA {
        return packed(page);
    }
    data
}

/// One byte everywhere but in a few places.
fn mostly_constant(rng: &mut Rng) -> Vec<u8> {
    let byte = rng.likely_byte();
    let mut page = vec![byte; PAGE];
    for _ in 0..rng.below(6) {
        let at = rng.below(PAGE);
        let runs = rng.runs(8, 12);
        let room = &mut page[at..];
        let length = runs.len().min(room.len());
        room[..length].copy_from_slice(&runs[..length]);
    }
    if rng.once_in(3) {
        page[PAGE - 1] = rng.likely_byte();
    }
    page
}

/// Codings of pages: many that are quick to read, and every coding of the images' pages.
pub struct Codings {
    pub quick: Vec<Coding>,
    pub all: Vec<Coding>,
}

impl Codings {
    pub fn new(rng: &mut Rng) -> Codings {
        let mut quick: Vec<Coding> = (0..=255)
            .map(|byte| Coding::packed(constant(PAGE, byte)))
            .collect();
        for _ in 0..600 {
            let page = mostly_constant(rng);
            quick.push(Coding::packed(packed(&page)));
            quick.push(Coding::packed(odd(&page, rng)));
        }
        let mut all = Vec::new();
        for _ in 0..40 {
            all.push(Coding::plain(&mostly_constant(rng)));
        }
        for (_, memory) in images(rng.word()) {
            for page in memory.chunks(PAGE) {
                all.push(Coding::plain(page));
                all.push(Coding::packed(packed(page)));
                all.push(Coding::packed(odd(page, rng)));
            }
        }
        Codings { quick, all }
    }

    /// A quick coding, and once in 25 times one of the others.
    pub fn any(&self, rng: &mut Rng) -> Coding {
        let list = if rng.once_in(25) {
            &self.all
        } else {
            &self.quick
        };
        list[rng.below(list.len())].clone()
    }

    pub fn quick(&self, rng: &mut Rng) -> Coding {
        self.quick[rng.below(self.quick.len())].clone()
    }
}
