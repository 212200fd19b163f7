//! The run packing of `.z80` memory blocks: the plain form of both directions, packing step by step,
//! and the fast slice forms that the benchmark measures against.

mod answer;
mod sliced;
mod steps;
#[cfg(test)]
mod tests;
pub mod wordwise;

pub use answer::{UnpackAnswer, MOST_COUNTED};
pub use sliced::{pack_into, unpack_into};
pub use steps::{pack_step, pack_steps, PackStep};

/// Both directions into a lent part.
pub trait PackingForm {
    fn unpack_into(src: &[u8], dst: &mut [u8]) -> UnpackAnswer;
    /// What unpacking into a part of `due` bytes answers.
    fn would_unpack(src: &[u8], due: usize) -> UnpackAnswer;
    fn pack_into(src: &[u8], dst: &mut [u8]) -> Option<usize>;
}

/// The ordinary slice form.
pub struct Ordinary;

/// The word-wise form.
pub struct Wordwise;

impl PackingForm for Ordinary {
    fn unpack_into(src: &[u8], dst: &mut [u8]) -> UnpackAnswer {
        unpack_into(src, dst)
    }

    fn would_unpack(src: &[u8], due: usize) -> UnpackAnswer {
        sliced::would_unpack(src, due)
    }

    fn pack_into(src: &[u8], dst: &mut [u8]) -> Option<usize> {
        pack_into(src, dst)
    }
}

impl PackingForm for Wordwise {
    fn unpack_into(src: &[u8], dst: &mut [u8]) -> UnpackAnswer {
        wordwise::unpack_into(src, dst)
    }

    fn would_unpack(src: &[u8], due: usize) -> UnpackAnswer {
        wordwise::would_unpack(src, due)
    }

    fn pack_into(src: &[u8], dst: &mut [u8]) -> Option<usize> {
        wordwise::pack_into(src, dst)
    }
}

/// The byte that, doubled, opens a code.
pub const ED: u8 = 0xED;

/// The longest run that one code stands for.
pub const LONGEST_RUN: usize = 255;

#[derive(Debug, Clone, PartialEq, Eq)]
pub enum UnpackedBytes {
    /// Where the first bad code starts.
    Malformed(usize),
    Bytes(Vec<u8>),
}

/// What the packed bytes stand for.
pub fn unpacked(data: &[u8]) -> UnpackedBytes {
    let mut out = Vec::new();
    let read = each_run(data, |count, byte| {
        out.extend(std::iter::repeat_n(byte, count))
    });
    match read {
        Ok(()) => UnpackedBytes::Bytes(out),
        Err(code) => UnpackedBytes::Malformed(code),
    }
}

/// What unpacking into a part of `due` bytes answers.
pub fn would_unpack(data: &[u8], due: usize) -> UnpackAnswer {
    let mut length = 0;
    match each_run(data, |count, _| length += count) {
        Ok(()) => UnpackAnswer::of_length(length, due),
        Err(code) => UnpackAnswer::Malformed(code),
    }
}

/// Tells how often which byte comes, from the left; or where the first bad code starts.
fn each_run(data: &[u8], mut tell: impl FnMut(usize, u8)) -> Result<(), usize> {
    let mut left = data;
    loop {
        left = match left {
            [] => return Ok(()),
            [ED, ED] | [ED, ED, _] | [ED, ED, 0, ..] => return Err(data.len() - left.len()),
            [ED, ED, count, byte, after @ ..] => {
                tell(usize::from(*count), *byte);
                after
            }
            [byte, after @ ..] => {
                tell(1, *byte);
                after
            }
        };
    }
}

/// The packed form of the bytes.
pub fn packed(data: &[u8]) -> Vec<u8> {
    let mut out = Vec::new();
    let mut left = data;
    while let Some(&byte) = left.first() {
        let run = left
            .iter()
            .take(LONGEST_RUN)
            .take_while(|b| **b == byte)
            .count();
        let taken = if (byte == ED && run >= 2) || run >= 5 {
            out.extend([ED, ED, run as u8, byte]);
            run
        } else {
            // A single ED takes the next byte, if there is one, along as it is.
            let plain = if byte == ED { left.len().min(2) } else { 1 };
            out.extend(&left[..plain]);
            plain
        };
        left = &left[taken..];
    }
    out
}
