//! Counters, headers and validity.

mod sound;

use super::*;
use crate::memory::Rng;

#[test]
fn p12_frame_positions() {
    assert_eq!(position(Model::K48, 0, 2), Ok(69_887));
    assert_eq!(position(Model::K48, 100, 0), Ok(34_843));
}

#[test]
fn counters_and_positions_are_inverse() {
    for model in [Model::K48, Model::K128] {
        for at in 0..4 * quarter(model) {
            let (low, high) = counters(model, at);
            assert_eq!(position(model, low, high), Ok(at));
        }
        let q = quarter(model) as u16;
        assert_eq!(position(model, q - 1, 3), Ok(0));
    }
}

#[test]
fn counters_out_of_range() {
    let bad = |model, low, high| match position(model, low, high) {
        Err(bad) => (bad.value, bad.largest),
        Ok(at) => panic!("{low} and {high} are position {at}"),
    };
    for high in [0, 3, 4, 255] {
        assert_eq!(bad(Model::K48, 17_472, high), (17_472, 17_471));
        assert_eq!(bad(Model::K48, 17_726, high), (17_726, 17_471));
        assert_eq!(bad(Model::K128, 17_727, high), (17_727, 17_726));
        assert_eq!(bad(Model::K128, 65_535, high), (65_535, 17_726));
    }
    for low in [0, 17_471] {
        assert_eq!(bad(Model::K48, low, 4), (4, 3));
        assert_eq!(bad(Model::K128, low + 255, 255), (255, 3));
    }
}

#[test]
fn the_blank_machine_is_valid_and_has_three_bytes_and_a_length() {
    let blank = Machine::blank();
    assert!(blank.is_valid());
    let mut bytes = [0; HEADER];
    bytes[30] = 54;
    bytes[55..58].copy_from_slice(&[0x3F, 0x44, 3]);
    assert_eq!(header(&blank), bytes);
    assert_eq!(own_header(&bytes), Some(blank));
}

#[test]
fn invalid_machines() {
    let blank = Machine::blank;
    let invalid = [
        Machine {
            interrupt_mode: 3,
            ..blank()
        },
        Machine {
            border: 8,
            ..blank()
        },
        Machine {
            joystick: 4,
            ..blank()
        },
        Machine {
            frame_position: 69_888,
            ..blank()
        },
        Machine {
            paging: 1,
            ..blank()
        },
        Machine {
            model: Model::K128,
            frame_position: 70_908,
            chip: true,
            ..blank()
        },
    ];
    assert!(invalid.iter().all(|machine| !machine.is_valid()));
}

/// A header that v3 reads, random elsewhere.
fn random_header(rng: &mut Rng) -> Vec<u8> {
    let mut bytes = rng.bytes(HEADER);
    bytes[6..8].fill(0);
    bytes[30..32].copy_from_slice(&[54, 0]);
    bytes[34] = rng.pick(&[0, 1, 3, 4, 5, 6]);
    bytes[29] &= 0xFE;
    bytes[56] %= 0x44;
    bytes[57] &= 3;
    bytes[60] = 0;
    bytes
}

#[test]
fn headers_of_valid_machines_are_read_back() {
    let mut rng = Rng::new(4);
    for _ in 0..20_000 {
        let bytes = random_header(&mut rng);
        let machine = from_header(Version::V3, &bytes).expect("a good header");
        assert!(machine.is_valid());
        let own = header(&machine);
        assert_eq!(own_header(&own), Some(machine.clone()));
        assert_eq!(from_header(Version::V3, &own), Ok(machine));
        assert_eq!(own_header(&bytes).is_some(), own[..] == bytes);
    }
}

#[test]
fn byte_12_of_255_counts_as_1() {
    let mut bytes = header(&Machine::blank());
    bytes[11] = 0x85;
    bytes[12] = 255;
    let machine = from_header(Version::V3, &bytes).expect("a good header");
    assert_eq!((machine.r, machine.border), (0x85, 0));
    let machine = from_header(Version::V1, &bytes[..30]).expect("not SamRom");
    assert_eq!((machine.r, machine.border), (0x85, 0));
    bytes[12] = 0x10;
    let refused = from_header(Version::V1, &bytes[..30]);
    assert_eq!(refused, Err(crate::refusal::Refusal::Mode.into()));
}
