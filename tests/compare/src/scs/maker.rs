//! Makes good SCS files. Most have little memory, so that a run takes many.

use super::sample::{ScsFileParts, SizedBlock};
use reference::machine::Model;
use reference::memory::{Rng, PAGE};
use reference::scs::{CPU_BLOCK, CPU_SIZE, MEMORY_BLOCK, PORTS_BLOCK, PORTS_SIZE};

pub const MODELS: [Model; 2] = [Model::K48, Model::K128];

/// The byte of the CPU block that has the interrupt mode.
pub const MODE_AT: usize = 26;

pub struct ScsMaker {
    pub rng: Rng,
}

impl ScsMaker {
    pub fn new(seed: u64) -> ScsMaker {
        ScsMaker {
            rng: Rng::new(seed),
        }
    }

    pub fn model(&mut self) -> Model {
        self.rng.pick(&MODELS)
    }

    /// The first 15 bytes; the emulator and its version are random half the time.
    pub fn start(&mut self, model: Model) -> Vec<u8> {
        let mut start = b"SamSnap!ASCD\x00\x62".to_vec();
        if self.rng.once_in(2) {
            start.truncate(8);
            start.extend(self.rng.bytes(6));
        }
        start.push(match model {
            Model::K48 => 1,
            Model::K128 => 2,
        });
        start
    }

    /// Random bytes of a CPU block, its interrupt mode not 3.
    pub fn cpu(&mut self, length: usize) -> Vec<u8> {
        let mut cpu = self.rng.bytes(length);
        if length > MODE_AT && cpu[MODE_AT] & 3 == 3 {
            cpu[MODE_AT] ^= 1 << self.rng.below(2);
        }
        cpu
    }

    /// A length around what is due, and once in four times any other.
    fn length(&mut self, due: usize) -> usize {
        match self.rng.below(4) {
            0 => self.rng.below(2 * due),
            1 => due - 1 + self.rng.below(3),
            _ => due,
        }
    }

    /// Little memory, once in 30 times about so many pages.
    pub fn memory(&mut self) -> Vec<u8> {
        let length = match self.rng.once_in(30) {
            false => self.rng.below(90),
            true => (self.rng.below(10) * PAGE + self.rng.below(3)).saturating_sub(1),
        };
        let mut memory = vec![self.rng.byte(); length];
        for _ in 0..length.min(40) {
            let at = self.rng.below(length);
            memory[at] = self.rng.byte();
        }
        memory
    }

    /// A block that is skipped, with any number above 3.
    pub fn skipped(&mut self) -> SizedBlock {
        let number = 4 + self.rng.below(252) as u8;
        let length = match self.rng.once_in(3) {
            true => 0,
            false => self.rng.below(40),
        };
        SizedBlock::new(number, self.rng.bytes(length))
    }

    /// Nothing, an end byte, five of them, or one with bytes behind it that would be blocks.
    pub fn tail(&mut self) -> Vec<u8> {
        match self.rng.below(4) {
            0 => Vec::new(),
            1 => vec![0],
            2 => vec![0; 5],
            _ => {
                let behind = [self.rng.pick(&[1, 2, 3, 4, 0]), 0, 0, 0, 0];
                let more = self.rng.below(12);
                [&[0][..], &behind, &self.rng.bytes(more)].concat()
            }
        }
    }

    /// A good file: Memory, then CPU, Ports and up to three skipped blocks in any order.
    pub fn sample(&mut self, model: Model) -> ScsFileParts {
        let (cpu, ports) = (self.length(CPU_SIZE), self.length(PORTS_SIZE));
        let mut sample = self.of_lengths(model, cpu, ports);
        for _ in 0..self.rng.below(4) {
            let block = self.skipped();
            sample.blocks.push(block);
        }
        let rest = &mut sample.blocks[1..];
        for at in (1..rest.len()).rev() {
            rest.swap(at, self.rng.below(at + 1));
        }
        sample.tail = self.tail();
        sample
    }

    pub fn any(&mut self) -> ScsFileParts {
        let model = self.model();
        self.sample(model)
    }

    /// Memory, CPU and Ports alone, the last two of these lengths, and no end byte.
    pub fn of_lengths(&mut self, model: Model, cpu: usize, ports: usize) -> ScsFileParts {
        let blocks = vec![
            SizedBlock::new(MEMORY_BLOCK, self.memory()),
            SizedBlock::new(CPU_BLOCK, self.cpu(cpu)),
            SizedBlock::new(PORTS_BLOCK, self.rng.bytes(ports)),
        ];
        ScsFileParts {
            start: self.start(model),
            blocks,
            tail: Vec::new(),
            cut: None,
        }
    }

    /// The same with blocks of the lengths that are due and a few bytes of memory.
    pub fn short(&mut self, model: Model) -> ScsFileParts {
        let mut sample = self.of_lengths(model, CPU_SIZE, PORTS_SIZE);
        *sample.data(MEMORY_BLOCK) = self.rng.bytes(20);
        sample.sized()
    }
}
