//! Packing into a lent part. The fastest of: runs measured by bytes and by words
//! with plain stretches copied, and plain steps of 8, 16 and 32 copied along.

use super::words::{every, lowest, word, zero_bytes};
use crate::packing::{ED, LONGEST_RUN};

/// Source bytes copied and looked at in one step.
const STRIDE: usize = 16;

/// A step and the bytes after it that show whether a run starts in it.
const AHEAD: usize = STRIDE + 4;

/// Packs into the front of `dst`, zeros after; `None` and all zeros if it does not fit.
pub fn pack_into(src: &[u8], dst: &mut [u8]) -> Option<usize> {
    let length = write_packed(src, dst);
    dst[length.unwrap_or(0)..].fill(0);
    length
}

/// Writes whole steps: what is too much is written over.
fn write_packed(src: &[u8], dst: &mut [u8]) -> Option<usize> {
    let (mut at, mut out) = (0, 0);
    while let (Some(chunk), Some(to)) = (
        src[at..].first_chunk::<AHEAD>(),
        dst[out..].first_chunk_mut::<AHEAD>(),
    ) {
        to[..STRIDE].copy_from_slice(&chunk[..STRIDE]);
        let plain = find_stop(chunk);
        at += plain;
        out += plain;
        if plain == STRIDE {
            continue;
        }
        let byte = chunk[plain];
        if byte == ED && chunk[plain + 1] != ED {
            to[plain..plain + 2].copy_from_slice(&[ED, chunk[plain + 1]]);
            at += 2;
            out += 2;
        } else {
            let run = run_length(&src[at..], byte);
            to[plain..plain + 4].copy_from_slice(&[ED, ED, run as u8, byte]);
            at += run;
            out += 4;
        }
    }
    write_end(&src[at..], dst, out)
}

/// Where the step has its first ED or start of five equal bytes, or STRIDE.
#[inline]
fn find_stop(chunk: &[u8; AHEAD]) -> usize {
    for at in [0, 8] {
        let first = word(chunk, at);
        let differs = |after: usize| first ^ word(chunk, at + after);
        let runs = zero_bytes(differs(1) | differs(2) | differs(3) | differs(4));
        let marks = runs | zero_bytes(first ^ every(ED));
        if marks != 0 {
            return at + lowest(marks);
        }
    }
    STRIDE
}

/// How often `src` starts with `byte`, at most 255 times.
#[inline]
fn run_length(src: &[u8], byte: u8) -> usize {
    let mut run = 0;
    while let Some(chunk) = src[run..].first_chunk::<8>() {
        let differs = word(chunk, 0) ^ every(byte);
        if differs != 0 {
            return LONGEST_RUN.min(run + lowest(differs));
        }
        run += 8;
        if run >= LONGEST_RUN {
            return LONGEST_RUN;
        }
    }
    let rest = src[run..].iter().take(LONGEST_RUN - run);
    run + rest.take_while(|b| **b == byte).count()
}

/// Packs where the source or the part is nearly at its end.
fn write_end(mut src: &[u8], dst: &mut [u8], mut out: usize) -> Option<usize> {
    while let Some(&byte) = src.first() {
        let run = run_length(src, byte);
        let taken = if run >= 5 || (byte == ED && run >= 2) {
            let code = [ED, ED, run as u8, byte];
            dst.get_mut(out..out + 4)?.copy_from_slice(&code);
            out += 4;
            run
        } else {
            let plain = if byte == ED { src.len().min(2) } else { run };
            dst.get_mut(out..out + plain)?
                .copy_from_slice(&src[..plain]);
            out += plain;
            plain
        };
        src = &src[taken..];
    }
    Some(out)
}
