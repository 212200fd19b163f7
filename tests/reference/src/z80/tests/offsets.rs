//! The offsets of refused files, worked out by hand.

use super::files::{v1, v2, v3};
use super::*;

fn told(file: &[u8]) -> (u32, u64) {
    answer_and_offset(file, MEMORY)
}

/// What is told of a file after a change.
fn changed(mut file: Vec<u8>, change: impl Fn(&mut Vec<u8>)) -> (u32, u64) {
    change(&mut file);
    told(&file)
}

/// What is told of a file with other bytes in some places.
fn with(file: Vec<u8>, bytes: &[(usize, u8)]) -> (u32, u64) {
    changed(file, |file| {
        bytes.iter().for_each(|(at, byte)| file[*at] = *byte)
    })
}

#[test]
fn accepted_files_and_numbers_without_an_offset() {
    for file in [v1(), v2(), v3()] {
        assert_eq!(told(&file), (0, 0));
        assert_eq!(told(&file[..29]), (2, 0));
        assert_eq!(answer_and_offset(&file, MEMORY + 1), (1, 0));
        assert_eq!(with(file, &[(29, 3)]), (5, 0));
    }
    assert_eq!(told(&v2()[..54]), (2, 0));
    assert_eq!(told(&v2()[..55]), (13, 0));
    assert_eq!(told(&v2()[..318]), (13, 0));
    assert_eq!(told(&v3()[..612]), (13, 0));
    assert_eq!(with(v3(), &[(30, 55)]), (3, 0));
    assert_eq!(with(v3(), &[(34, 2)]), (4, 0));
    assert_eq!(with(v1(), &[(12, 0x30)]), (4, 0));
    assert_eq!(with(v3(), &[(57, 4)]), (6, 0));
    assert_eq!(with(v3(), &[(60, 1)]), (7, 0));
    assert_eq!(answer_and_offset(&v3()[..87], MEMORY - 1), (1, 0));
}

#[test]
fn cut_blocks() {
    for (end, head) in [
        (87, 86),
        (88, 86),
        (89, 86),
        (348, 86),
        (350, 349),
        (351, 349),
        (352, 349),
        (613, 612),
        (614, 612),
        (615, 612),
        (874, 612),
    ] {
        assert_eq!(told(&v3()[..end]), (8, head));
    }
    for (end, head) in [(56, 55), (317, 55), (319, 318), (583, 581), (843, 581)] {
        assert_eq!(told(&v2()[..end]), (8, head));
    }
    for more in [&[9][..], &[9, 9], &[1, 0, 9], &[0xFF, 0xFF, 9, 1, 2, 3]] {
        assert_eq!(told(&[&v3(), more].concat()), (8, 875));
        assert_eq!(told(&[&v2(), more].concat()), (8, 844));
    }
    // the first block takes one byte more than there is, the second one a whole page
    assert_eq!(with(v3(), &[(86, 0x13), (87, 3)]), (8, 86));
    assert_eq!(with(v3(), &[(349, 255), (350, 255)]), (8, 349));
}

#[test]
fn block_numbers() {
    for (number_at, head) in [(88, 86), (351, 349), (614, 612)] {
        assert_eq!(with(v3(), &[(number_at, 3)]), (9, head));
        assert_eq!(with(v2(), &[(number_at - 31, 9)]), (9, head - 31));
    }
    // 4, 5, 8 in this order
    assert_eq!(with(v3(), &[(351, 4)]), (10, 349));
    assert_eq!(with(v3(), &[(614, 4)]), (10, 612));
    assert_eq!(with(v2(), &[(583, 5)]), (10, 581));
    assert_eq!(told(&[&v3(), &[0, 0, 5][..]].concat()), (10, 875));
    assert_eq!(told(&[&v3(), &[0, 0, 6][..]].concat()), (9, 875));
}

#[test]
fn unpacked_lengths() {
    for (count_at, head) in [(91, 86), (95, 86), (354, 349), (617, 612), (873, 612)] {
        assert_eq!(with(v3(), &[(count_at, 1)]), (12, head));
        assert_eq!(with(v2(), &[(count_at - 31, 1)]), (12, head - 31));
    }
    for count_at in [32, 416, 800] {
        assert_eq!(with(v1(), &[(count_at, 1)]), (12, 30));
    }
    for length in [30, 31, 806] {
        let mut plain = v1();
        plain[12] = 0;
        plain.truncate(length);
        assert_eq!(told(&plain), (12, 30));
    }
    // blocks without data
    let empty = |file: &mut Vec<u8>| drop(file.splice(349..612, [0, 0, 5]));
    assert_eq!(changed(v3(), empty), (12, 349));
}

#[test]
fn bad_codes_in_blocks() {
    for (count_at, code) in [
        (91, 89),
        (95, 93),
        (347, 345),
        (354, 352),
        (610, 608),
        (617, 615),
        (873, 871),
    ] {
        assert_eq!(with(v3(), &[(count_at, 0)]), (11, code));
        assert_eq!(with(v2(), &[(count_at - 31, 0)]), (11, code - 31));
        assert_eq!(with(v3(), &[(count_at, 0), (874, 9)]), (11, code));
    }
    assert_eq!(with(v3(), &[(95, 0), (99, 0)]), (11, 93));
    // of the wrong length before the bad code
    assert_eq!(with(v3(), &[(91, 1), (873, 0)]), (12, 86));
    assert_eq!(with(v3(), &[(617, 1), (873, 0)]), (11, 871));
    // the last code loses one byte, and two
    assert_eq!(changed(v3(), |file| cut(file, 3)), (11, 871));
    assert_eq!(changed(v3(), |file| cut(file, 2)), (11, 871));
    // a single ED at the end stands for itself: 63 bytes too few
    assert_eq!(changed(v3(), |file| cut(file, 1)), (12, 612));
}

/// Takes the last code's end away, so that so many bytes of it are left.
fn cut(file: &mut Vec<u8>, left: u8) {
    file.truncate(871 + usize::from(left));
    file[612..614].copy_from_slice(&[left, 1]);
}

#[test]
fn bad_codes_in_v1() {
    for (count_at, code) in [(32, 30), (36, 34), (416, 414), (800, 798)] {
        assert_eq!(with(v1(), &[(count_at, 0)]), (11, code));
    }
    assert_eq!(with(v1(), &[(416, 0), (800, 0)]), (11, 414));
    assert_eq!(with(v1(), &[(36, 1), (800, 0)]), (11, 798));
    // the data end before the marker, whose first byte would make a code of ED ED 192
    for lost in [1, 2] {
        let lose = |file: &mut Vec<u8>| drop(file.drain(802 - lost..802));
        assert_eq!(changed(v1(), lose), (11, 798));
    }
    assert_eq!(changed(v1(), |file| drop(file.drain(799..802))), (12, 30));
}

#[test]
fn end_markers() {
    for end in [30, 31, 33, 34, 400, 802, 803, 805] {
        assert_eq!(told(&v1()[..end]), (14, end as u64));
    }
    for at in 802..806 {
        assert_eq!(with(v1(), &[(at, 0x55)]), (14, 806));
    }
    assert_eq!(with(v1(), &[(32, 0), (805, 1)]), (14, 806));
    assert_eq!(told(&[&v1(), &[7][..]].concat()), (14, 807));
}
