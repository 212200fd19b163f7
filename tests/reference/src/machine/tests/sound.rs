//! The sound chip: which machines have it, what byte 37 says, and which headers are ours.

use super::*;

const MODELS: [Model; 2] = [Model::K48, Model::K128];

/// A header of this version and mode with these bytes 35 and 37, and bytes 38 to 54 all 9.
fn bytes(version: Version, mode: u8, last_out: u8, emulation: u8) -> Vec<u8> {
    let mut bytes = header(&Machine::blank()).to_vec();
    (bytes[34], bytes[35], bytes[37]) = (mode, last_out, emulation);
    bytes[38..55].fill(9);
    bytes[30] = version.header_length() as u8 - 32;
    bytes.truncate(version.header_length());
    bytes
}

/// The modes that each version carries, with their models.
fn modes(version: Version) -> Vec<(u8, Model)> {
    let (k48, k128): (&[u8], &[u8]) = match version {
        Version::V1 => (&[], &[]),
        Version::V2 => (&[0, 1], &[3, 4]),
        Version::V3 => (&[0, 1, 3], &[4, 5, 6]),
    };
    let of = |modes: &[u8], model| modes.iter().map(|mode| (*mode, model)).collect();
    let all: [Vec<_>; 2] = [of(k48, Model::K48), of(k128, Model::K128)];
    all.concat()
}

#[test]
fn every_value_of_byte_37_is_read() {
    for version in [Version::V2, Version::V3] {
        for (mode, model) in modes(version) {
            for value in 0..=255 {
                let file = bytes(version, mode, 0x17, value);
                let machine = from_header(version, &file).expect("a good header");
                let chip = model == Model::K128 || value & 4 == 4;
                let (select, sound) = if chip { (9, [9; 16]) } else { (0, [0; 16]) };
                assert_eq!((machine.model, machine.chip), (model, chip));
                assert_eq!((machine.sound_select, machine.sound), (select, sound));
                let paging = if model == Model::K128 { 0x17 } else { 0 };
                assert_eq!(machine.paging, paging);
                assert_eq!(machine.r_emulation, value & 1 == 1);
                assert_eq!(machine.ldir_emulation, value & 2 == 2);
                assert!(machine.is_valid());
                let kept = if model == Model::K48 { 7 } else { 3 };
                assert_eq!(header(&machine)[37], value & kept);
            }
        }
    }
}

#[test]
fn v1_has_no_chip() {
    let mut rng = Rng::new(11);
    for _ in 0..1_000 {
        let mut bytes = rng.bytes(30);
        bytes[12] &= 0xEF;
        bytes[29] &= 0xFE;
        let machine = from_header(Version::V1, &bytes).expect("a good header");
        assert!(!machine.chip && machine.is_valid());
        assert_eq!(header(&machine)[35..55], [0; 20]);
    }
}

#[test]
fn every_value_of_byte_37_in_a_header_buffer() {
    for (mode, model) in modes(Version::V3) {
        for value in 0..=255 {
            for (select, register, last_out) in
                [(0, 0, 0), (1, 0, 0), (0, 1, 0), (0, 0, 1), (1, 1, 1)]
            {
                let mut file = bytes(Version::V3, mode, last_out, value);
                file[38..55].fill(0);
                (file[38], file[54]) = (select, register);
                let is_silent = (select, register) == (0, 0);
                let is_ours = match model {
                    Model::K48 => value <= 7 && last_out == 0 && (value >= 4 || is_silent),
                    Model::K128 => value <= 3,
                };
                assert_eq!(own_header(&file).is_some(), is_ours, "{mode} {value}");
            }
        }
    }
}

#[test]
fn a_silent_chip_is_not_no_chip() {
    let without = header(&Machine::blank());
    let mut with = without;
    with[37] = 4;
    let machine = own_header(&with).expect("a good header");
    assert!(machine.chip && machine != Machine::blank());
    let blank = Machine::blank();
    assert_eq!(
        Machine {
            chip: false,
            ..machine
        },
        blank
    );
}

#[test]
fn validity_with_and_without_the_chip() {
    for model in MODELS {
        for chip in [false, true] {
            for (paging, sound_select, last) in
                [(0, 0, 0), (1, 0, 0), (0, 1, 0), (0, 0, 1), (1, 1, 1)]
            {
                let mut machine = Machine {
                    model,
                    chip,
                    paging,
                    sound_select,
                    ..Machine::blank()
                };
                machine.sound[15] = last;
                let is_valid = match (model, chip) {
                    (Model::K48, false) => (paging, sound_select, last) == (0, 0, 0),
                    (Model::K48, true) => paging == 0,
                    (Model::K128, has_chip) => has_chip,
                };
                assert_eq!(machine.is_valid(), is_valid, "{machine:?}");
            }
        }
        assert!(Machine::blank_as(model).is_valid());
    }
}
