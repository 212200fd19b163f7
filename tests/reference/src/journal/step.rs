//! A step of the log: one tagged field of 11 bytes.

/// The bytes of a step.
pub const STEP: usize = 11;

/// The most steps of any log.
const MOST: usize = 4_096;

/// The steps that a log of this length holds.
pub fn capacity(log_length: usize) -> u64 {
    (log_length / STEP).min(MOST) as u64
}

#[derive(Debug, Clone, Copy, PartialEq, Eq)]
pub struct Step {
    pub tag: u8,
    pub length: u16,
    /// A RAM page, a register pair, or 0.
    pub index: u8,
    pub offset: u16,
    pub old: u16,
    pub new: u16,
    pub last: u8,
}

impl Step {
    fn new(tag: u8, index: u8, offset: u16, old: u16, new: u16) -> Step {
        Step {
            tag,
            length: 8,
            index,
            offset,
            old,
            new,
            last: 0,
        }
    }

    pub fn byte(page: u8, offset: u16, old: u8, new: u8) -> Step {
        Step::new(1, page, offset, old.into(), new.into())
    }

    pub fn pair(pair: u8, old: u16, new: u16) -> Step {
        Step::new(2, pair, 0, old, new)
    }

    pub fn out(old: u8, new: u8) -> Step {
        Step::new(3, 0, 0, old.into(), new.into())
    }

    pub fn from_bytes(bytes: &[u8]) -> Step {
        let word = |at| u16::from_le_bytes([bytes[at], bytes[at + 1]]);
        Step {
            tag: bytes[0],
            length: word(1),
            index: bytes[3],
            offset: word(4),
            old: word(6),
            new: word(8),
            last: bytes[10],
        }
    }

    pub fn bytes(&self) -> [u8; STEP] {
        let mut bytes = [0; STEP];
        bytes[0] = self.tag;
        bytes[1..3].copy_from_slice(&self.length.to_le_bytes());
        bytes[3] = self.index;
        bytes[4..6].copy_from_slice(&self.offset.to_le_bytes());
        bytes[6..8].copy_from_slice(&self.old.to_le_bytes());
        bytes[8..10].copy_from_slice(&self.new.to_le_bytes());
        bytes[10] = self.last;
        bytes
    }
}
