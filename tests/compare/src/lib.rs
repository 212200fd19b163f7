//! What the comparisons use: checked calls of the library, lent parts between guard bytes, random machines, headers of
//! every kind of sound, packed data with a bad code, examples of packing, choices of faults, and the report.
#![deny(unsafe_code)]

pub mod bad_codes;
pub mod calls;
pub mod choice;
pub mod ffi_snapshot;
pub mod lent;
pub mod machines;
pub mod pack_examples;
pub mod report;
pub mod sounds;
