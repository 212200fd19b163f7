//! The register pairs by number.

use super::Machine;

/// The register pairs AF BC DE HL AF' BC' DE' HL' IX IY SP PC.
pub const PAIRS: u8 = 12;

impl Machine {
    /// The value of a register pair below 12.
    pub fn pair(&self, pair: u8) -> u16 {
        match pair {
            0 => u16::from_be_bytes([self.a, self.f]),
            1 => self.bc,
            2 => self.de,
            3 => self.hl,
            4 => u16::from_be_bytes([self.alt_a, self.alt_f]),
            5 => self.alt_bc,
            6 => self.alt_de,
            7 => self.alt_hl,
            8 => self.ix,
            9 => self.iy,
            10 => self.sp,
            11 => self.pc,
            _ => panic!("no register pair {pair}"),
        }
    }

    /// Gives a register pair below 12 a value.
    pub fn put_pair(&mut self, pair: u8, value: u16) {
        match pair {
            0 => [self.a, self.f] = value.to_be_bytes(),
            1 => self.bc = value,
            2 => self.de = value,
            3 => self.hl = value,
            4 => [self.alt_a, self.alt_f] = value.to_be_bytes(),
            5 => self.alt_bc = value,
            6 => self.alt_de = value,
            7 => self.alt_hl = value,
            8 => self.ix = value,
            9 => self.iy = value,
            10 => self.sp = value,
            11 => self.pc = value,
            _ => panic!("no register pair {pair}"),
        }
    }
}
