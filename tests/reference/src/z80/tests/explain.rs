//! Explanations of refused files, worked out by hand.

use super::files::{v1, v2, v3, v3_128k};
use super::*;

/// Offset, block, found and due of a file that is refused with this number.
fn why(file: &[u8], number: u32) -> (u64, u64, u64, u64) {
    let told = explain(file);
    for other in [direct::explain::<Ordinary>, direct::explain::<Wordwise>] {
        assert_eq!(other(file), told);
    }
    let figures = (told.number, told.offset);
    assert_eq!(figures, answer_and_offset(file, MEMORY));
    assert_eq!(told.number, number);
    (told.offset, told.block, told.found, told.due)
}

/// The same of a file with other bytes in some places.
fn with(mut file: Vec<u8>, bytes: &[(usize, u8)], number: u32) -> (u64, u64, u64, u64) {
    bytes.iter().for_each(|(at, byte)| file[*at] = *byte);
    why(&file, number)
}

/// The file with other data in the block whose head stands here; each block is 263 bytes long.
fn with_data(file: &[u8], head: usize, data: &[u8]) -> Vec<u8> {
    let length = (data.len() as u16).to_le_bytes();
    let number = &file[head + 2..][..1];
    [&file[..head], &length, number, data, &file[head + 263..]].concat()
}

#[test]
fn good_files() {
    for file in [v1(), v2(), v3(), v3_128k()] {
        assert_eq!(why(&file, 0), (0, 0, 0, 0));
    }
}

#[test]
fn short_files() {
    for (file, length, due) in [
        (v1(), 0, 30),
        (v1(), 29, 30),
        (v2(), 29, 30),
        (v2(), 30, 32),
        (v3(), 31, 32),
        (v2(), 32, 55),
        (v2(), 54, 55),
        (v3(), 32, 86),
        (v3(), 55, 86),
        (v3(), 85, 86),
    ] {
        assert_eq!(why(&file[..length], 2), (0, 0, length as u64, due));
    }
}

#[test]
fn headers_without_figures() {
    assert_eq!(with(v3(), &[(30, 55)], 3), (0, 0, 0, 0));
    assert_eq!(with(v2(), &[(34, 2)], 4), (0, 0, 0, 0));
    assert_eq!(with(v1(), &[(12, 0x10)], 4), (0, 0, 0, 0));
    assert_eq!(with(v1(), &[(29, 3)], 5), (0, 0, 0, 0));
    assert_eq!(with(v3(), &[(60, 1)], 7), (0, 0, 0, 0));
}

#[test]
fn counters() {
    // 17,472 is 44 40 and 17,727 is 45 3F, both hexadecimal
    let low_of_48k = [(55, 0x40), (56, 0x44)];
    assert_eq!(with(v3(), &low_of_48k, 6), (0, 0, 17_472, 17_471));
    let both = [(55, 0x40), (56, 0x44), (57, 9)];
    assert_eq!(with(v3(), &both, 6), (0, 0, 17_472, 17_471));
    assert_eq!(with(v3(), &[(57, 9), (60, 1)], 6), (0, 0, 9, 3));
    assert_eq!(with(v3_128k(), &low_of_48k, 0), (0, 0, 0, 0));
    let low_of_128k = [(55, 0x3F), (56, 0x45)];
    assert_eq!(with(v3_128k(), &low_of_128k, 6), (0, 0, 17_727, 17_726));
    let largest = [(55, 0x3E), (56, 0x45), (57, 4)];
    assert_eq!(with(v3_128k(), &largest, 6), (0, 0, 4, 3));
}

#[test]
fn ordinals_of_blocks() {
    assert_eq!(why(&v3()[..88], 8), (86, 1, 0, 0));
    assert_eq!(why(&v2()[..843], 8), (581, 3, 0, 0));
    assert_eq!(why(&[&v3(), &[9][..]].concat(), 8), (875, 4, 0, 0));
    assert_eq!(why(&[&v3_128k(), &[9, 9][..]].concat(), 8), (2190, 9, 0, 0));
    assert_eq!(with(v3(), &[(88, 3)], 9), (86, 1, 0, 0));
    assert_eq!(with(v3_128k(), &[(614, 11)], 9), (612, 3, 0, 0));
    assert_eq!(with(v3(), &[(351, 4)], 10), (349, 2, 0, 0));
    let again = [&v3_128k(), &[0, 0, 3][..]].concat();
    assert_eq!(why(&again, 10), (2190, 9, 0, 0));
    assert_eq!(with(v3(), &[(91, 0)], 11), (89, 1, 0, 0));
    assert_eq!(with(v3_128k(), &[(2188, 0)], 11), (2186, 8, 0, 0));
    assert_eq!(with(v1(), &[(416, 0)], 11), (414, 1, 0, 0));
    // after a plain block: 86 + 3 + 16,384 is 16,473
    let plain = [&v3()[..89], &vec![0; PAGE], &v3()[349..]].concat();
    let plain = |at, byte| with(plain.clone(), &[(86, 255), (87, 255), (at, byte)], 9);
    assert_eq!(plain(16_475, 3), (16_473, 2, 0, 0));
    assert_eq!(plain(16_475 + 263, 3), (16_473 + 263, 3, 0, 0));
}

#[test]
fn unpacked_lengths() {
    // a code of 255 is changed to one of 1
    assert_eq!(with(v3(), &[(91, 1)], 12), (86, 1, 16_130, 16_384));
    assert_eq!(with(v2(), &[(586, 1)], 12), (581, 3, 16_130, 16_384));
    assert_eq!(with(v1(), &[(32, 1)], 12), (30, 1, 48_898, 49_152));
    for (data, length) in [
        (Vec::new(), 0),
        (vec![0xED], 1),
        ([0xED, 0xED, 255, 7].repeat(257), 65_535),
        ([0xED, 0xED, 255, 7].repeat(258), 65_536),
        // 4,177,665 bytes
        ([0xED, 0xED, 255, 7].repeat(16_383), 65_536),
    ] {
        let second = with_data(&v3(), 349, &data);
        assert_eq!(why(&second, 12), (349, 2, length, 16_384));
        let eighth = with_data(&v3_128k(), 1927, &data);
        assert_eq!(why(&eighth, 12), (1927, 8, length, 16_384));
        let body = [&v1()[..30], &data, &[0x00, 0xED, 0xED, 0x00]].concat();
        assert_eq!(why(&body, 12), (30, 1, length, 49_152));
    }
}

#[test]
fn plain_v1_bodies() {
    for (length, found) in [
        (0, 0),
        (1, 1),
        (49_151, 49_151),
        (49_153, 49_153),
        (65_535, 65_535),
        (65_536, 65_536),
        (65_537, 65_536),
        (70_000, 65_536),
    ] {
        let mut file = vec![0; 30 + length];
        file[6] = 1;
        assert_eq!(why(&file, 12), (30, 1, found, 49_152));
    }
}

#[test]
fn missing_blocks() {
    for (file, blocks) in [(v3(), 3), (v3_128k(), 8)] {
        for found in 0..blocks {
            let cut = &file[..86 + 263 * found];
            assert_eq!(why(cut, 13), (0, 0, found as u64, blocks as u64));
        }
    }
}

#[test]
fn end_markers() {
    assert_eq!(why(&v1()[..30], 14), (30, 1, 0, 0));
    assert_eq!(why(&v1()[..805], 14), (805, 1, 0, 0));
    assert_eq!(with(v1(), &[(32, 0), (802, 1)], 14), (806, 1, 0, 0));
}
