//! Which RAM pages a model owns, and which one lies at an address.

use super::Model;

pub fn owns(model: Model, page: u8) -> bool {
    match model {
        Model::K48 => matches!(page, 0 | 2 | 5),
        Model::K128 => page < 8,
    }
}

/// The RAM page at an address after this last OUT to 7FFD; none below 4000.
pub fn page_at(model: Model, last_out: u8, address: u16) -> Option<u8> {
    match (address / 0x4000, model) {
        (0, _) => None,
        (1, _) => Some(5),
        (2, _) => Some(2),
        (_, Model::K48) => Some(0),
        (_, Model::K128) => Some(last_out % 8),
    }
}
