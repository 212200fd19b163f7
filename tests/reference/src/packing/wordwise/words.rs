//! Eight bytes at a time, first byte lowest.

const ONES: u64 = u64::from_le_bytes([1; 8]);

/// A word of eight equal bytes.
#[inline]
pub const fn every(byte: u8) -> u64 {
    ONES * byte as u64
}

/// The eight bytes of `chunk` from `at`.
#[inline]
pub fn word<const N: usize>(chunk: &[u8; N], at: usize) -> u64 {
    let mut bytes = [0; 8];
    bytes.copy_from_slice(&chunk[at..at + 8]);
    u64::from_le_bytes(bytes)
}

/// Marks the zero bytes; the lowest mark is always right.
#[inline]
pub fn zero_bytes(x: u64) -> u64 {
    x.wrapping_sub(ONES) & !x & (ONES << 7)
}

/// The number of the lowest byte that is not zero; `x` is not zero.
#[inline]
pub fn lowest(x: u64) -> usize {
    x.trailing_zeros() as usize / 8
}
