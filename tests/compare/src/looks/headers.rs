//! The headers and the addresses looked at.

use compare::machines::machine;
use reference::machine::{header, Attachment, Machine, Model, HEADER};
use reference::memory::Rng;

/// Every kind of machine.
pub const MACHINE_KINDS: [(Model, Attachment); 6] = [
    (Model::K48, Attachment::None),
    (Model::K48, Attachment::Interface1),
    (Model::K48, Attachment::Mgt),
    (Model::K128, Attachment::None),
    (Model::K128, Attachment::Interface1),
    (Model::K128, Attachment::Mgt),
];

/// A machine of this kind, random in all else.
pub fn of_kind(rng: &mut Rng, (model, attachment): (Model, Attachment)) -> Machine {
    Machine {
        attachment,
        ..machine(rng, model)
    }
}

/// The header of a machine of this kind, random in all else.
pub fn ours(rng: &mut Rng, kind: (Model, Attachment)) -> [u8; HEADER] {
    header(&of_kind(rng, kind))
}

/// Both sides of every border of 4,096 bytes, and one byte further.
pub fn borders() -> Vec<u16> {
    let around = |border: u16| (0..4).map(move |at| border.wrapping_add(at).wrapping_sub(2));
    (0..16).flat_map(|part| around(part * 0x1000)).collect()
}

/// The borders and as many other addresses.
pub fn addresses(rng: &mut Rng) -> Vec<u16> {
    let mut all = borders();
    all.extend((0..all.len()).map(|_| rng.word() as u16));
    all
}

/// Every pair number, those too that name no pair.
pub fn every_pair() -> Vec<u8> {
    (0..=255).collect()
}
