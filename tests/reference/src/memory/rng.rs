//! A splitmix64 generator with the small lists the comparisons are made of.

use crate::packing::ED;

pub struct Rng(u64);

impl Rng {
    pub fn new(seed: u64) -> Rng {
        Rng(seed)
    }

    pub fn word(&mut self) -> u64 {
        self.0 = self.0.wrapping_add(0x9E37_79B9_7F4A_7C15);
        let mut x = self.0;
        x = (x ^ (x >> 30)).wrapping_mul(0xBF58_476D_1CE4_E5B9);
        x = (x ^ (x >> 27)).wrapping_mul(0x94D0_49BB_1331_11EB);
        x ^ (x >> 31)
    }

    /// A number below `bound`, which is not 0.
    pub fn below(&mut self, bound: usize) -> usize {
        (self.word() % bound as u64) as usize
    }

    pub fn byte(&mut self) -> u8 {
        (self.word() >> 56) as u8
    }

    /// True once in `n` times.
    pub fn once_in(&mut self, n: usize) -> bool {
        self.below(n) == 0
    }

    /// One of the given values.
    pub fn pick<T: Copy>(&mut self, values: &[T]) -> T {
        values[self.below(values.len())]
    }

    pub fn bytes(&mut self, length: usize) -> Vec<u8> {
        (0..length).map(|_| self.byte()).collect()
    }

    /// A byte that is ED or 00 far more often than by chance.
    pub fn likely_byte(&mut self) -> u8 {
        match self.below(8) {
            0..=2 => ED,
            3 => 0,
            4 => 0x41,
            5 => self.pick(&[1, 5, 0xEC, 0xEE, 0xFF]),
            _ => self.byte(),
        }
    }

    /// Fewer than `most` runs, each of 1 to `longest` bytes.
    pub fn runs(&mut self, most: usize, longest: usize) -> Vec<u8> {
        let mut data = Vec::new();
        for _ in 0..self.below(most) {
            let byte = self.likely_byte();
            let run = 1 + self.below(longest);
            data.resize(data.len() + run, byte);
        }
        data
    }

    /// Fewer than `most` codes with a few plain bytes between them.
    pub fn codes(&mut self, most: usize) -> Vec<u8> {
        let mut data = Vec::new();
        for _ in 0..self.below(most) {
            if self.once_in(2) {
                let count = if self.once_in(4) {
                    self.byte().max(1)
                } else {
                    1 + self.below(9) as u8
                };
                data.extend([ED, ED, count, self.likely_byte()]);
            } else {
                data.push(self.likely_byte());
            }
        }
        data
    }
}
