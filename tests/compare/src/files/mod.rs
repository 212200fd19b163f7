//! The comparison over stored files: reading and explaining them, and writing what they hold.

pub mod explained;
pub mod stored;
pub mod written;
