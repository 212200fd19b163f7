//! The comparison of `.z80` files: the files made for it, and the groups.

pub mod block_groups;
pub mod code_groups;
pub mod coding;
pub mod explain_groups;
pub mod fault_groups;
pub mod faults;
pub mod head_groups;
pub mod header_groups;
pub mod maker;
pub mod order_groups;
pub mod place_groups;
pub mod sample;
pub mod sound_groups;
pub mod told_figures;
pub mod write_groups;
