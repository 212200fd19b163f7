//! The same calls, eight and sixteen bytes at a time: what ordinary Rust can reach with more effort, and the
//! benchmark's anchor.

mod pack;
mod unpack;
mod words;

pub use pack::pack_into;
pub use unpack::{unpack_into, would_unpack};
