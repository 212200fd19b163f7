//! The two T state counters of v3 and the position in the frame that they stand for.

use super::Model;

/// The T states of a quarter of a frame.
pub fn quarter(model: Model) -> u32 {
    match model {
        Model::K48 => 17_472,
        Model::K128 => 17_727,
    }
}

/// A counter that is out of range.
#[derive(Debug, Clone, Copy, PartialEq, Eq)]
pub struct BadCounter {
    pub value: u32,
    /// The largest that it may be.
    pub largest: u32,
}

/// The frame position of a low and a high counter, or the first of them that is out of range.
pub fn position(model: Model, low: u16, high: u8) -> Result<u32, BadCounter> {
    let (q, low, high) = (quarter(model), u32::from(low), u32::from(high));
    for (value, largest) in [(low, q - 1), (high, 3)] {
        if value > largest {
            return Err(BadCounter { value, largest });
        }
    }
    Ok((high + 1) % 4 * q + (q - 1 - low))
}

/// The low and the high counter of a frame position below four quarters.
pub fn counters(model: Model, position: u32) -> (u16, u8) {
    let q = quarter(model);
    let low = q - 1 - position % q;
    let high = (position / q + 3) % 4;
    (low as u16, high as u8)
}
