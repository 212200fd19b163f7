//! The comparison of SCS files: the files made for it, and the groups.

pub mod block_groups;
pub mod cut_groups;
pub mod fault_groups;
pub mod faults;
pub mod field_groups;
pub mod maker;
pub mod place_groups;
pub mod sample;
pub mod size_groups;
pub mod sound_groups;
pub mod start_groups;
pub mod write_groups;
