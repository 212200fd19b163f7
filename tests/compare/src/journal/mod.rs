//! The comparison of the journal: lists of calls, invented logs, and the groups.

pub mod fault_groups;
pub mod faults;
pub mod forge;
pub mod header_groups;
pub mod list_groups;
pub mod lists;
pub mod order_groups;
pub mod start_groups;
pub mod step_groups;
pub mod view_groups;
