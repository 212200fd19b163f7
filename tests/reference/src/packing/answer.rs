//! What unpacking into a part answers.

/// Unpacked lengths are counted no further.
pub const MOST_COUNTED: usize = 65_536;

#[derive(Debug, Clone, Copy, PartialEq, Eq)]
pub enum UnpackAnswer {
    Good,
    /// Where the first bad code starts.
    Malformed(usize),
    /// The unpacked length, at most MOST_COUNTED.
    WrongLength(usize),
}

impl UnpackAnswer {
    /// Malformed, the bad code being what `src` ends in.
    pub fn malformed(src: &[u8], code: &[u8]) -> UnpackAnswer {
        UnpackAnswer::Malformed(src.len() - code.len())
    }

    /// Good codes that stand for so many bytes, where `due` are due.
    pub fn of_length(length: usize, due: usize) -> UnpackAnswer {
        match length == due {
            true => UnpackAnswer::Good,
            false => UnpackAnswer::WrongLength(length.min(MOST_COUNTED)),
        }
    }
}
