//! The parts of the benchmark of packing and of `.z80` files.

pub mod explain;
mod files;
mod measured;
pub mod packing;
pub mod plot;
mod scale;
mod svg;
pub mod table;
mod theirs;
mod timed;
pub mod z80;

pub use files::{all, StoredFile};
pub use measured::{Direction, DirectionTimes};
pub use timed::{Timed, Who};
