//! The comparison of the page that a view returns: what is lent, the calls that are checked, and the groups.

pub mod checks;
pub mod groups;
pub mod sources;
