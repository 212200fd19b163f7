//! The examples of the rules, and the fast forms against the plain ones.

mod steps;

use super::*;
use crate::memory::Rng;

fn list(parts: &[(usize, u8)]) -> Vec<u8> {
    let runs = parts.iter();
    runs.flat_map(|&(n, byte)| std::iter::repeat_n(byte, n))
        .collect()
}

/// The runs pack to these bytes, by steps of these cases.
fn packs(parts: &[(usize, u8)], code: &[u8], cases: &[u32]) {
    let data = list(parts);
    assert_eq!(packed(&data), code);
    assert_eq!(steps::cases(&data), cases);
    assert_eq!(unpacked(code), UnpackedBytes::Bytes(data));
}

#[test]
fn p1_five_zeros() {
    packs(&[(5, 0)], &[ED, ED, 5, 0], &[3]);
}

#[test]
fn p2_four_zeros_stay() {
    packs(&[(4, 0)], &[0, 0, 0, 0], &[4, 4, 4, 4]);
}

#[test]
fn p3_one_ed() {
    packs(&[(1, ED)], &[ED], &[2]);
}

#[test]
fn p4_two_ed() {
    packs(&[(2, ED)], &[ED, ED, 2, ED], &[1]);
}

#[test]
fn p5_ed_and_six_zeros() {
    packs(&[(1, ED), (6, 0)], &[ED, 0, ED, ED, 5, 0], &[2, 3]);
}

#[test]
fn p6_ed_and_five_zeros_stay() {
    let cases = [2, 4, 4, 4, 4];
    packs(&[(1, ED), (5, 0)], &[ED, 0, 0, 0, 0, 0], &cases);
}

#[test]
fn p7_256_of_one_byte() {
    packs(&[(256, 0x41)], &[ED, ED, 0xFF, 0x41, 0x41], &[3, 4]);
}

#[test]
fn p8_256_ed_and_seven_zeros() {
    let code = [ED, ED, 0xFF, ED, ED, 0, ED, ED, 6, 0];
    packs(&[(256, ED), (7, 0)], &code, &[1, 2, 3]);
}

#[test]
fn p9_nothing() {
    packs(&[], &[], &[]);
}

#[test]
fn p10_a_run_of_one() {
    assert_eq!(
        unpacked(&[ED, ED, 1, 0x41]),
        UnpackedBytes::Bytes(vec![0x41])
    );
}

#[test]
fn p11_malformed() {
    for code in [
        &[ED, ED, 0, 0x41][..],
        &[ED, ED, 3],
        &[ED, ED],
        &[ED, ED, 0],
    ] {
        assert_eq!(unpacked(code), UnpackedBytes::Malformed(0));
    }
}

/// Packed bytes, and where their first bad code starts.
const BAD_CODES: [(&[u8], usize); 14] = [
    (&[0x41, ED, ED], 1),
    (&[0x41, 0x42, 0x43, ED, ED, 3], 3),
    (&[ED, ED, 0, ED, ED, 0, 0x41], 0),
    (&[ED, ED, 5, 0, ED, ED, 0, 0x41], 4),
    (&[ED, ED, 5, 0, ED, ED, 0, 0x41, ED, ED], 4),
    // a single ED before other bytes
    (&[ED, 0, ED, ED, 0, 0x41], 2),
    (&[ED, 0x41, ED, ED], 2),
    // a code for ED, after which ED 00 is plain; a code for 237 times ED
    (&[ED, ED, 5, ED, ED, 0, 0x41, ED, ED, 1], 7),
    (&[ED, ED, ED, ED, ED, ED, 0, 1], 4),
    // three ED open a code for 237 times 00
    (&[ED, ED, ED, 0, ED, ED], 4),
    (&[ED, ED, ED], 0),
    (&[ED, ED, 255, 1, ED, ED, 255, 2, ED, ED, 255], 8),
    (&[ED, ED, 1, 0, 0, 0, ED, ED, ED, ED, ED, ED, 0], 10),
    (&[0x00, ED, ED, 0x00], 1),
];

#[test]
fn the_first_bad_code_is_told() {
    for (code, place) in BAD_CODES {
        assert_eq!(unpacked(code), UnpackedBytes::Malformed(place));
        for plain in [0, 13, 14, 15, 16, 17, 60, 100] {
            let longer = [&vec![0x41; plain], code].concat();
            assert_eq!(unpacked(&longer), UnpackedBytes::Malformed(plain + place));
            for room in [0, 1, plain, plain + 5, 300, 2_000] {
                let told = UnpackAnswer::Malformed(plain + place);
                assert_eq!(Ordinary::unpack_into(&longer, &mut vec![1; room]), told);
                assert_eq!(Wordwise::unpack_into(&longer, &mut vec![1; room]), told);
                assert_eq!(would_by_all(&longer, room), told);
            }
        }
    }
}

/// What unpacking into a part of `due` bytes answers by every form.
fn would_by_all(code: &[u8], due: usize) -> UnpackAnswer {
    let answer = would_unpack(code, due);
    assert_eq!(Ordinary::would_unpack(code, due), answer);
    assert_eq!(Wordwise::would_unpack(code, due), answer);
    answer
}

#[test]
fn wrong_lengths_are_counted() {
    use UnpackAnswer::{Good, WrongLength};
    for (code, due, answer) in [
        (&[][..], 0, Good),
        (&[], 1, WrongLength(0)),
        (&[0x41], 0, WrongLength(1)),
        (&[ED], 2, WrongLength(1)),
        (&[ED, 0x41, ED], 4, WrongLength(3)),
        (&[ED, ED, 1, ED], 2, WrongLength(1)),
        (&[ED, ED, 255, 0], 254, WrongLength(255)),
        (&[ED, ED, 255, ED, ED, 0, 1], 257, WrongLength(258)),
        (&[1, 2, 3, ED, ED, 5, 4], 8, Good),
        (&[1, 2, 3, ED, ED, 5, 4], 7, WrongLength(8)),
    ] {
        assert_eq!(would_by_all(code, due), answer);
        assert_eq!(Ordinary::unpack_into(code, &mut vec![1; due]), answer);
        assert_eq!(Wordwise::unpack_into(code, &mut vec![1; due]), answer);
    }
}

#[test]
fn lengths_are_counted_to_65_536() {
    // 257 codes of 255 are 65,535 bytes
    let code = [ED, ED, 255, 0x41].repeat(257);
    let more = |end: &[u8]| [&code, end].concat();
    for (code, length, counted) in [
        (code.clone(), 65_535, 65_535),
        (more(&[7]), 65_536, 65_536),
        (more(&[7, 8]), 65_537, 65_536),
        (more(&[ED, ED, 255, 0]), 65_790, 65_536),
        (code.repeat(64), 4_194_240, 65_536),
    ] {
        for due in [0, 16_384, 65_534, 65_535, 65_536, 65_537, 65_790, 70_000] {
            let answer = match due == length {
                true => UnpackAnswer::Good,
                false => UnpackAnswer::WrongLength(counted),
            };
            assert_eq!(would_by_all(&code, due), answer);
            assert_eq!(Ordinary::unpack_into(&code, &mut vec![1; due]), answer);
            assert_eq!(Wordwise::unpack_into(&code, &mut vec![1; due]), answer);
        }
    }
}

fn check_unpack_into<F: PackingForm>(code: &[u8], length: usize) {
    let mut part = vec![0xA5; length];
    let answer = F::unpack_into(code, &mut part);
    let (expected, bytes) = match unpacked(code) {
        UnpackedBytes::Malformed(place) => (UnpackAnswer::Malformed(place), vec![0; length]),
        UnpackedBytes::Bytes(bytes) if bytes.len() == length => (UnpackAnswer::Good, bytes),
        UnpackedBytes::Bytes(bytes) => {
            let counted = bytes.len().min(65_536);
            (UnpackAnswer::WrongLength(counted), vec![0; length])
        }
    };
    assert_eq!(would_unpack(code, length), expected);
    assert_eq!(F::would_unpack(code, length), expected);
    assert_eq!(
        (answer, part),
        (expected, bytes),
        "{code:02X?} into {length}"
    );
}

fn check_pack_into<F: PackingForm>(data: &[u8], length: usize) {
    let mut part = vec![0xA5; length];
    let answer = F::pack_into(data, &mut part);
    let mut bytes = packed(data);
    let expected = (bytes.len() <= length).then_some(bytes.len());
    if expected.is_none() {
        bytes.clear();
    }
    bytes.resize(length, 0);
    assert_eq!(
        (answer, part),
        (expected, bytes),
        "{data:02X?} into {length}"
    );
}

fn check_form<F: PackingForm>() {
    let mut rng = Rng::new(1);
    for case in 0..60_000 {
        let longest = if case % 8 == 0 { 300 } else { 9 };
        let data = rng.runs(30, longest);
        let code = packed(&data);
        for length in [code.len(), code.len() + 9, code.len().saturating_sub(1), 0] {
            check_pack_into::<F>(&data, length);
        }
        let mut codes = rng.codes(60);
        if case % 3 == 0 {
            codes.truncate(rng.below(codes.len() + 1));
        }
        let full = match unpacked(&codes) {
            UnpackedBytes::Bytes(bytes) => bytes.len(),
            UnpackedBytes::Malformed(_) => rng.below(600),
        };
        for length in [full, full + 1, full.saturating_sub(1), rng.below(full + 1)] {
            check_unpack_into::<F>(&codes, length);
        }
        check_unpack_into::<F>(&data, data.len());
    }
}

#[test]
fn the_ordinary_form_agrees_with_the_plain_one() {
    check_form::<Ordinary>();
}

#[test]
fn the_word_wise_form_agrees_with_the_plain_one() {
    check_form::<Wordwise>();
}
