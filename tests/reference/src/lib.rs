//! Ordinary Rust implementations of the rules, written independently of the
//! library under test, and the data they are compared and timed on.
#![forbid(unsafe_code)]

mod buffers;
pub mod journal;
pub mod machine;
pub mod memory;
pub mod packing;
pub mod refusal;
pub mod samples;
pub mod scs;
pub mod z80;
