//! Both directions into a lent part, in the ordinary form: codes found by `windows(2).position`, plain
//! stretches copied as slices, runs filled as slices.

use super::{UnpackAnswer, ED, LONGEST_RUN};

/// Unpacks into the whole of `dst`; a refused `dst` is left all zero.
pub fn unpack_into(src: &[u8], dst: &mut [u8]) -> UnpackAnswer {
    let answer = write_unpacked(src, src, dst.len(), dst);
    if answer != UnpackAnswer::Good {
        dst.fill(0);
    }
    answer
}

/// Writes what `left`, the unread end of the source, stands for, from the front of `dst` on: the unwritten end of a
/// part of `due` bytes.
pub fn write_unpacked(src: &[u8], mut left: &[u8], due: usize, mut dst: &mut [u8]) -> UnpackAnswer {
    loop {
        let (plain, codes) = left.split_at(plain_length(left));
        let written = due - dst.len();
        let Some((to, room)) = dst.split_at_mut_checked(plain.len()) else {
            return counted(src, left, written, due);
        };
        to.copy_from_slice(plain);
        let written = due - room.len();
        let (count, byte, after) = match codes {
            [] => return UnpackAnswer::of_length(written, due),
            [_, _, count @ 1..=255, byte, after @ ..] => (usize::from(*count), *byte, after),
            _ => return UnpackAnswer::malformed(src, codes),
        };
        let Some((to, room)) = room.split_at_mut_checked(count) else {
            return counted(src, codes, written, due);
        };
        to.fill(byte);
        (left, dst) = (after, room);
    }
}

/// What unpacking into a part of `due` bytes answers.
pub fn would_unpack(src: &[u8], due: usize) -> UnpackAnswer {
    counted(src, src, 0, due)
}

/// The same where `left`, the end of the source, is still to be counted, and what is before it stands for `length` bytes.
pub fn counted(src: &[u8], mut left: &[u8], mut length: usize, due: usize) -> UnpackAnswer {
    loop {
        let (plain, codes) = left.split_at(plain_length(left));
        length += plain.len();
        left = match codes {
            [] => return UnpackAnswer::of_length(length, due),
            [_, _, count @ 1..=255, _, after @ ..] => {
                length += usize::from(*count);
                after
            }
            _ => return UnpackAnswer::malformed(src, codes),
        };
    }
}

/// The bytes before the first ED ED.
fn plain_length(src: &[u8]) -> usize {
    let code = src.windows(2).position(|pair| pair == [ED, ED]);
    code.unwrap_or(src.len())
}

/// Packs into the front of `dst`, zeros after; `None` and all zeros if it does not fit.
pub fn pack_into(src: &[u8], dst: &mut [u8]) -> Option<usize> {
    let length = write_packed(src, dst);
    dst[length.unwrap_or(0)..].fill(0);
    length
}

fn write_packed(src: &[u8], dst: &mut [u8]) -> Option<usize> {
    // src[plain..at] is a plain stretch that is not copied yet
    let (mut plain, mut at, mut out) = (0, 0, 0);
    while at < src.len() {
        let byte = src[at];
        let run = run_length(&src[at..]);
        if run >= 5 || (byte == ED && run >= 2) {
            let code = out + (at - plain);
            dst.get_mut(out..code)?.copy_from_slice(&src[plain..at]);
            dst.get_mut(code..code + 4)?
                .copy_from_slice(&[ED, ED, run as u8, byte]);
            out = code + 4;
            at += run;
            plain = at;
        } else {
            at = (at + if byte == ED { 2 } else { run }).min(src.len());
        }
    }
    let end = out + (at - plain);
    dst.get_mut(out..end)?.copy_from_slice(&src[plain..at]);
    Some(end)
}

/// How often `src`, which is not empty, starts with its first byte, at most 255 times.
fn run_length(src: &[u8]) -> usize {
    let few = &src[..src.len().min(LONGEST_RUN)];
    let other = few.iter().position(|b| *b != src[0]);
    other.unwrap_or(few.len())
}
