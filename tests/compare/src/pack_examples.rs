//! The examples of packing in the rules, P1 to P9.

use reference::packing::ED;

pub struct PackExample {
    pub name: &'static str,
    /// The data as the rules say them.
    pub words: &'static str,
    runs: &'static [(usize, u8)],
    pub packed: &'static [u8],
    /// The cases of the steps that pack them.
    pub cases: &'static [u32],
}

pub const PACK_EXAMPLES: [PackExample; 9] = [
    PackExample::of("P1", "five 00", &[(5, 0)], &[ED, ED, 5, 0], &[3]),
    PackExample::of("P2", "four 00", &[(4, 0)], &[0, 0, 0, 0], &[4, 4, 4, 4]),
    PackExample::of("P3", "ED", &[(1, ED)], &[ED], &[2]),
    PackExample::of("P4", "ED ED", &[(2, ED)], &[ED, ED, 2, ED], &[1]),
    PackExample::of(
        "P5",
        "ED and six 00",
        &[(1, ED), (6, 0)],
        &[ED, 0, ED, ED, 5, 0],
        &[2, 3],
    ),
    PackExample::of(
        "P6",
        "ED and five 00",
        &[(1, ED), (5, 0)],
        &[ED, 0, 0, 0, 0, 0],
        &[2, 4, 4, 4, 4],
    ),
    PackExample::of(
        "P7",
        "256 times 41",
        &[(256, 0x41)],
        &[ED, ED, 255, 0x41, 0x41],
        &[3, 4],
    ),
    PackExample::of(
        "P8",
        "256 ED and seven 00",
        &[(256, ED), (7, 0)],
        &[ED, ED, 255, ED, ED, 0, ED, ED, 6, 0],
        &[1, 2, 3],
    ),
    PackExample::of("P9", "nothing", &[], &[], &[]),
];

impl PackExample {
    const fn of(
        name: &'static str,
        words: &'static str,
        runs: &'static [(usize, u8)],
        packed: &'static [u8],
        cases: &'static [u32],
    ) -> PackExample {
        PackExample {
            name,
            words,
            runs,
            packed,
            cases,
        }
    }

    /// The bytes that are packed.
    pub fn data(&self) -> Vec<u8> {
        let mut data = Vec::new();
        for &(length, byte) in self.runs {
            data.resize(data.len() + length, byte);
        }
        data
    }
}
