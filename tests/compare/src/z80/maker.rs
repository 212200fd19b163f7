//! Makes good files of every version and mode.

use super::coding::{Coding, Codings};
use super::sample::{CodedBlock, FileParts};
use reference::machine::{quarter, Machine, Model, Version};
use reference::memory::{Rng, PAGE};

pub const VERSIONS: [Version; 3] = [Version::V1, Version::V2, Version::V3];

pub struct Maker {
    pub rng: Rng,
    pub codings: Codings,
}

impl Maker {
    pub fn new(seed: u64) -> Maker {
        let mut rng = Rng::new(seed);
        let codings = Codings::new(&mut rng);
        Maker { rng, codings }
    }

    /// A good file of a random version and mode.
    pub fn any(&mut self) -> FileParts {
        let version = self.rng.pick(&VERSIONS);
        self.sample(version)
    }

    /// A good file of this version and of a random mode.
    pub fn sample(&mut self, version: Version) -> FileParts {
        let mode = match version {
            Version::V1 => 0,
            Version::V2 => self.rng.pick(&[0, 1, 3, 4]),
            Version::V3 => self.rng.pick(&[0, 1, 3, 4, 5, 6]),
        };
        self.of_mode(version, mode)
    }

    /// A good file of this version and mode.
    pub fn of_mode(&mut self, version: Version, mode: u8) -> FileParts {
        let first_128 = if version == Version::V2 { 3 } else { 4 };
        let model = match mode < first_128 {
            true => Model::K48,
            false => Model::K128,
        };
        let mut sample = FileParts {
            version,
            model,
            header: self.header(version, model, mode),
            blocks: Vec::new(),
            body: Vec::new(),
            marker: Vec::new(),
            tail: Vec::new(),
            cut: None,
        };
        match version {
            Version::V1 => self.v1_body(&mut sample),
            _ => sample.blocks = self.blocks(model),
        }
        sample
    }

    fn header(&mut self, version: Version, model: Model, mode: u8) -> Vec<u8> {
        let rng = &mut self.rng;
        let mut header = rng.bytes(version.header_length());
        if rng.once_in(8) {
            header.fill(0);
        }
        if rng.once_in(16) {
            header[12] = 255;
        }
        if header[29] & 3 == 3 {
            header[29] &= 0xFC | rng.pick(&[0, 1, 2]);
        }
        if version == Version::V1 {
            header[6] |= 1;
            if header[12] != 255 {
                header[12] &= 0xEF;
            }
            return header;
        }
        header[6..8].fill(0);
        (header[30], header[31]) = (header.len() as u8 - 32, 0);
        header[34] = mode;
        if rng.once_in(4) {
            header[38..55].fill(0);
        }
        if version == Version::V3 {
            let low = rng.below(quarter(model) as usize) as u16;
            header[55..57].copy_from_slice(&low.to_le_bytes());
            header[57] &= 3;
            header[60] = 0;
        }
        header
    }

    /// Every block of the model, in a random order.
    pub fn blocks(&mut self, model: Model) -> Vec<CodedBlock> {
        let mut blocks = Vec::new();
        for &(number, _) in Machine::blocks(model) {
            let coding = self.codings.any(&mut self.rng);
            blocks.push(CodedBlock { number, coding });
        }
        for at in (1..blocks.len()).rev() {
            blocks.swap(at, self.rng.below(at + 1));
        }
        blocks
    }

    /// A body packed or not, as byte 12 says: three pages, one after the other.
    fn v1_body(&mut self, sample: &mut FileParts) {
        let is_packed = sample.is_packed_v1();
        for part in 0..3 {
            let coding = self.v1_part(is_packed, part == 2);
            sample.body.extend(&coding.data);
        }
        if is_packed {
            sample.marker = vec![0x00, 0xED, 0xED, 0x00];
        }
    }

    /// A coding for a v1 body. Only the last part may end in ED, which would change the meaning of the next.
    fn v1_part(&mut self, is_packed: bool, is_last: bool) -> Coding {
        loop {
            let coding = match is_packed {
                true => self.codings.any(&mut self.rng),
                false => self.any_of_all(),
            };
            let ends_well = is_last || coding.data.last() != Some(&0xED);
            if coding.is_plain() != is_packed && (ends_well || !is_packed) {
                return coding;
            }
        }
    }

    fn any_of_all(&mut self) -> Coding {
        let all = &self.codings.all;
        all[self.rng.below(all.len())].clone()
    }

    /// A short file: every page of one byte, the blocks in order.
    pub fn short(&mut self, version: Version, mode: u8) -> FileParts {
        let mut sample = self.of_mode(version, mode);
        for block in &mut sample.blocks {
            block.coding = Coding::packed(super::coding::constant(PAGE, self.rng.likely_byte()));
        }
        if version == Version::V1 {
            sample.header[12] = 0x20;
            sample.body = super::coding::constant(3 * PAGE, 0x41);
            sample.marker = vec![0x00, 0xED, 0xED, 0x00];
        }
        sample
    }
}
