//! The offsets of refused SCS files, worked out by hand.

use super::*;

/// What is told of a file with these parts after its 15 bytes.
fn told(parts: &[&[u8]]) -> (u32, u64) {
    answer_and_offset(&[&start(2), &parts.concat()[..]].concat())
}

#[test]
fn heads_of_cut_blocks_and_of_blocks_that_come_twice() {
    // heads at 15, 21 and 26, the end at 31
    let (memory, cpu, ports) = (block(3, &[7]), block(1, &[]), block(2, &[]));
    let all = [&memory[..], &cpu, &ports].concat();
    assert_eq!(told(&[&all]), (0, 0));
    assert_eq!(told(&[&[3]]), (8, 15));
    assert_eq!(told(&[&memory[..4]]), (8, 15));
    assert_eq!(told(&[&memory[..5]]), (8, 15));
    assert_eq!(told(&[&[3, 255, 255, 255, 255]]), (8, 15));
    assert_eq!(told(&[&memory, &[1]]), (8, 21));
    assert_eq!(told(&[&memory, &[9, 1, 0, 0, 0]]), (8, 21));
    assert_eq!(told(&[&memory, &cpu, &ports[..4]]), (8, 26));
    assert_eq!(told(&[&memory, &cpu, &[2, 1, 0, 0, 0]]), (8, 26));
    for length in 1..5 {
        assert_eq!(told(&[&all, &[4, 0, 0, 0][..length]]), (8, 31));
        assert_eq!(told(&[&all, &[0, 4, 4, 4][..length]]), (0, 0));
    }
    assert_eq!(told(&[&memory, &memory]), (42, 21));
    assert_eq!(told(&[&memory, &cpu, &cpu, &ports]), (42, 26));
    for twice in [&memory, &cpu, &ports] {
        assert_eq!(told(&[&all, twice]), (42, 31));
        // a block that is skipped, with its five bytes of head and 300 of data
        assert_eq!(told(&[&all, &block(77, &[3; 300]), twice]), (42, 336));
    }
    assert_eq!(told(&[&all, &block(1, &[1]), &[9]]), (42, 31));
    assert_eq!(told(&[&all, &[1, 1, 0, 0, 0]]), (8, 31));
}

#[test]
fn numbers_without_an_offset() {
    let (memory, cpu, ports) = (block(3, &[7]), block(1, &[3; 34]), block(2, &[]));
    assert_eq!(answer_and_offset(&start(1)[..14]), (2, 0));
    assert_eq!(answer_and_offset(&start(3)), (40, 0));
    assert_eq!(answer_and_offset(&start(1)), (43, 0));
    assert_eq!(told(&[&[4]]), (43, 0));
    assert_eq!(told(&[&memory, &cpu]), (41, 0));
    assert_eq!(told(&[&memory, &[0], &cpu]), (41, 0));
    assert_eq!(told(&[&memory, &cpu, &ports]), (5, 0));
}
