//! The steps of packing: each case with its bytes, and what the steps of some data come to.

use super::*;
use crate::memory::{images, PAGE};

/// The case of each step.
pub fn cases(data: &[u8]) -> Vec<u32> {
    pack_steps(data).iter().map(|step| step.case).collect()
}

/// The first step of these runs is of this case, writes these bytes and takes so many, whatever stands before them.
fn first_step(parts: &[(usize, u8)], case: u32, written: &[u8], taken: usize) {
    let step = Some(PackStep {
        case,
        written: written.to_vec(),
        taken,
    });
    let data = list(parts);
    assert_eq!(pack_step(&data, 0), step);
    for front in [&[0x41][..], &[ED], &[0, 0, ED], &[ED; 3], &[0; 7]] {
        assert_eq!(pack_step(&[front, &data].concat(), front.len()), step);
    }
}

#[test]
fn case_1_is_a_run_of_ed() {
    first_step(&[(2, ED)], 1, &[ED, ED, 2, ED], 2);
    first_step(&[(3, ED), (9, 0)], 1, &[ED, ED, 3, ED], 3);
    first_step(&[(254, ED), (1, 0)], 1, &[ED, ED, 254, ED], 254);
    first_step(&[(255, ED)], 1, &[ED, ED, 255, ED], 255);
    first_step(&[(256, ED), (7, 0)], 1, &[ED, ED, 255, ED], 255);
    first_step(&[(70_000, ED)], 1, &[ED, ED, 255, ED], 255);
}

#[test]
fn case_2_is_a_single_ed_and_the_next_byte() {
    first_step(&[(1, ED)], 2, &[ED], 1);
    first_step(&[(1, ED), (1, 0)], 2, &[ED, 0], 2);
    first_step(&[(1, ED), (6, 0)], 2, &[ED, 0], 2);
    first_step(&[(1, ED), (300, 0xFF)], 2, &[ED, 0xFF], 2);
    first_step(&[(1, ED), (1, 0xEC), (2, ED)], 2, &[ED, 0xEC], 2);
}

#[test]
fn case_3_is_a_run_of_another_byte_from_five() {
    first_step(&[(5, 0)], 3, &[ED, ED, 5, 0], 5);
    first_step(&[(6, 0xEC), (1, ED)], 3, &[ED, ED, 6, 0xEC], 6);
    first_step(&[(254, 1)], 3, &[ED, ED, 254, 1], 254);
    first_step(&[(255, 1), (2, ED)], 3, &[ED, ED, 255, 1], 255);
    first_step(&[(256, 1)], 3, &[ED, ED, 255, 1], 255);
    first_step(&[(70_000, 0)], 3, &[ED, ED, 255, 0], 255);
}

#[test]
fn case_4_is_one_plain_byte() {
    for n in 1..5 {
        first_step(&[(n, 0)], 4, &[0], 1);
        first_step(&[(n, 0xEE), (2, ED)], 4, &[0xEE], 1);
        first_step(&[(n, 0xFF), (9, 0)], 4, &[0xFF], 1);
    }
}

#[test]
fn where_the_data_end_there_is_no_step() {
    for data in [&[][..], &[ED], &[0; 9], &[ED; 300]] {
        for at in [data.len(), data.len() + 1, 1 << 32, usize::MAX] {
            assert_eq!(pack_step(data, at), None);
        }
    }
}

/// The steps' bytes joined are the packed bytes, what they take adds up to the data, and all of them unpack to it.
fn check_steps(data: &[u8]) {
    let steps = pack_steps(data);
    let taken: usize = steps.iter().map(|step| step.taken).sum();
    let written: Vec<u8> = steps.into_iter().flat_map(|step| step.written).collect();
    assert_eq!(taken, data.len());
    assert_eq!(written, packed(data), "{data:02X?}");
    assert_eq!(unpacked(&written), UnpackedBytes::Bytes(data.to_vec()));
}

#[test]
fn the_steps_come_to_the_packed_bytes() {
    let mut rng = Rng::new(1);
    for case in 0..60_000 {
        let data = match case % 8 {
            0 => rng.runs(30, 300),
            1 => rng.bytes(case % 100),
            2 => rng.codes(60),
            _ => rng.runs(30, 9),
        };
        check_steps(&data);
    }
    for (_, memory) in images(1) {
        memory.chunks(PAGE).for_each(check_steps);
    }
}

#[test]
fn at_every_place_what_is_left_is_packed_from_there() {
    let mut rng = Rng::new(2);
    for _ in 0..2_000 {
        let data = rng.runs(12, 12);
        for at in 0..data.len() {
            let step = pack_step(&data, at).expect("a byte there");
            let after = packed(&data[at + step.taken..]);
            assert_eq!([step.written, after].concat(), packed(&data[at..]));
        }
    }
}
