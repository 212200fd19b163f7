//! The comparison of looks at a machine: the headers looked at, the calls that are checked, and the groups.

pub mod checks;
pub mod groups;
pub mod headers;
pub mod seen;
