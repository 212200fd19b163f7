//! What every benchmark uses: interleaved measurements, and the lines that hold a ratio to its target.
#![forbid(unsafe_code)]

pub mod timing;
pub mod verdict;
