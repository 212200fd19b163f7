//! Unpacking into a lent part. The fastest of: `windows(2)`, byte loops in steps
//! of one and two, words and wide compares, each found first or copied along.

use super::words::{every, lowest, word, zero_bytes};
use crate::packing::sliced::{counted, write_unpacked as write_unpacked_plainly};
use crate::packing::{UnpackAnswer, ED};

/// Source bytes copied and looked at in one step.
const STRIDE: usize = 16;

/// A run of up to this many bytes is written as a block of this many.
const SHORT: usize = 32;

/// Unpacks into the whole of `dst`; a refused `dst` is left all zero.
pub fn unpack_into(src: &[u8], dst: &mut [u8]) -> UnpackAnswer {
    let answer = write_unpacked(src, dst);
    if answer != UnpackAnswer::Good {
        dst.fill(0);
    }
    answer
}

/// Writes steps and short runs as whole blocks: what is too much is written over.
fn write_unpacked(src: &[u8], mut dst: &mut [u8]) -> UnpackAnswer {
    let (mut left, due) = (src, dst.len());
    while let (Some(chunk), Some(to)) = (
        left.first_chunk::<{ STRIDE + 1 }>(),
        dst.first_chunk_mut::<{ STRIDE + SHORT }>(),
    ) {
        to[..STRIDE].copy_from_slice(&chunk[..STRIDE]);
        let plain = find_code(chunk);
        if plain == STRIDE {
            (left, dst) = (&left[STRIDE..], &mut dst[STRIDE..]);
            continue;
        }
        let [_, _, count @ 1..=255, byte, after @ ..] = &left[plain..] else {
            return UnpackAnswer::malformed(src, &left[plain..]);
        };
        let (count, room) = (usize::from(*count), &mut dst[plain..]);
        if count <= SHORT {
            room[..SHORT].fill(*byte);
        } else if count <= room.len() {
            room[..count].fill(*byte);
        } else {
            return counted(src, &left[plain..], due - room.len(), due);
        }
        (left, dst) = (after, &mut room[count..]);
    }
    write_unpacked_plainly(src, left, due, dst)
}

/// What unpacking into a part of `due` bytes answers.
pub fn would_unpack(src: &[u8], due: usize) -> UnpackAnswer {
    let (mut left, mut length) = (src, 0);
    while let Some(chunk) = left.first_chunk::<{ STRIDE + 1 }>() {
        let plain = find_code(chunk);
        length += plain;
        left = &left[plain..];
        if plain < STRIDE {
            let [_, _, count @ 1..=255, _, after @ ..] = left else {
                return UnpackAnswer::malformed(src, left);
            };
            length += usize::from(*count);
            left = after;
        }
    }
    counted(src, left, length, due)
}

/// Where ED ED starts in the step, or STRIDE if it does not.
#[inline]
fn find_code(chunk: &[u8; STRIDE + 1]) -> usize {
    for at in [0, 8] {
        let (first, second) = (word(chunk, at), word(chunk, at + 1));
        let marks = zero_bytes((first ^ every(ED)) | (second ^ every(ED)));
        if marks != 0 {
            return at + lowest(marks);
        }
    }
    STRIDE
}
