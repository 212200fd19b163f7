//! The examples of the rules, and the direct forms against the plain one.

mod explain;
mod files;
mod offsets;

use super::*;
use crate::machine::{header, Machine, Model, HEADER};
use crate::memory::{images, Rng, MEMORY, PAGE};
use crate::packing::{packed, Ordinary, Wordwise};

/// The answer for a file and its offset, read into an area of `area` bytes by every form.
fn answer_and_offset(file: &[u8], area: usize) -> (u32, u64) {
    let (mut one, mut first, mut offset) = (vec![0xA5; area], [1; HEADER], 0xA5A5);
    let answer = read_bytes(file, &mut one, &mut first, &mut offset);
    for read in [
        direct::read_bytes::<Ordinary>,
        direct::read_bytes::<Wordwise>,
    ] {
        let (mut two, mut second, mut other) = (vec![0x5A; area], [2; HEADER], 0x5A5A);
        assert_eq!(read(file, &mut two, &mut second, &mut other), answer);
        assert!(one == two && first == second);
        assert_eq!(other, offset);
    }
    if answer != 0 {
        assert!(one.iter().all(|byte| *byte == 0));
        assert_eq!(first, header(&Machine::blank()));
    }
    (answer, offset)
}

fn answer(file: &[u8], area: usize) -> u32 {
    answer_and_offset(file, area).0
}

/// The file of every form in an output of `room` bytes, or the number.
fn written(header: &[u8], area: &[u8], room: usize) -> Result<Vec<u8>, u32> {
    let (mut one, mut first) = (vec![0xA5; room], 1);
    let answer = write_bytes(header, area, &mut one, &mut first);
    for write in [
        direct::write_bytes::<Ordinary>,
        direct::write_bytes::<Wordwise>,
    ] {
        let (mut two, mut second) = (vec![0x5A; room], 2);
        assert_eq!(write(header, area, &mut two, &mut second), answer);
        assert!(one == two && first == second);
    }
    let length = first as usize;
    assert!(one[length..].iter().all(|byte| *byte == 0));
    one.truncate(length);
    if answer == 0 {
        Ok(one)
    } else {
        Err(answer)
    }
}

fn machine(model: Model) -> Machine {
    Machine::blank_as(model)
}

#[test]
fn files_of_29_and_30_bytes() {
    let mut file = vec![0; 30];
    assert_eq!(answer(&file[..29], MEMORY), 2);
    assert_eq!(answer(&file, MEMORY), 2);
    file[7] = 0x80;
    assert_eq!(answer(&file, MEMORY), 12);
    assert_eq!(answer(&file[..29], MEMORY), 2);
    file[12] = 0x20;
    assert_eq!(answer(&file, MEMORY), 14);
    file[12] = 255;
    assert_eq!(answer(&file, MEMORY), 12);
}

#[test]
fn an_area_one_byte_short() {
    let file = write(&machine(Model::K48), &vec![0; MEMORY]);
    assert_eq!(answer(&file, MEMORY - 1), 1);
    assert_eq!(answer(&[], MEMORY - 1), 1);
    assert_eq!(answer(&file, MEMORY), 0);
}

#[test]
fn header_buffers_of_other_lengths() {
    let file = write(&machine(Model::K48), &vec![0; MEMORY]);
    for length in [0, 85, 87] {
        for read in [
            read_bytes,
            direct::read_bytes::<Ordinary>,
            direct::read_bytes::<Wordwise>,
        ] {
            let (mut area, mut bytes, mut offset) = (vec![1; 5], vec![1; length], 1);
            assert_eq!(read(&file, &mut area, &mut bytes, &mut offset), 20);
            assert!(area == [0; 5] && bytes == vec![0; length] && offset == 0);
        }
        assert_eq!(written(&vec![0; length], &[], 9), Err(20));
    }
}

#[test]
fn a_page_that_is_not_owned_is_cleared() {
    let memory: Vec<u8> = (0..MEMORY).map(|at| (at / PAGE + 1) as u8).collect();
    let file = write(&machine(Model::K48), &memory);
    let (_, read) = read(&file).expect("our own file");
    let pages: Vec<u8> = read.chunks(PAGE).map(|page| page[0]).collect();
    assert_eq!(pages, [1, 0, 3, 0, 0, 6, 0, 0]);
    assert_eq!(answer(&file, MEMORY), 0);
}

#[test]
fn images_are_written_and_read_back() {
    let mut rng = Rng::new(5);
    for (_, memory) in images(6) {
        let machine = machine(Model::K128);
        let bytes = header(&machine);
        let file = write(&machine, &memory);
        assert_eq!(written(&bytes, &memory, file.len()), Ok(file.clone()));
        assert_eq!(written(&bytes, &memory, LONGEST_FILE), Ok(file.clone()));
        let short = rng.below(file.len());
        for room in [0, 85, 86, 88, short, file.len() - 1] {
            assert_eq!(written(&bytes, &memory, room), Err(22));
        }
        assert_eq!(answer(&file, MEMORY), 0);
        assert_eq!(read(&file), Ok((machine, memory)));
    }
}

#[test]
fn packed_blocks_are_those_that_are_shorter_than_a_page() {
    for (_, memory) in images(6) {
        let file = write(&machine(Model::K128), &memory);
        let pages = memory.chunks(PAGE).map(packed).enumerate();
        let shorter: Vec<_> = pages.filter(|(_, code)| code.len() < PAGE).collect();
        let blocks = packed_blocks(&file).expect("our own file");
        let blocks = blocks.into_iter().map(|(page, code)| (page, code.to_vec()));
        assert_eq!(blocks.collect::<Vec<_>>(), shorter);
    }
}

#[test]
fn the_longest_file() {
    let memory = [0xED, 0x00].repeat(MEMORY / 2);
    let file = write(&machine(Model::K128), &memory);
    assert_eq!(file.len(), LONGEST_FILE);
    assert_eq!(read(&file), Ok((machine(Model::K128), memory)));
}

#[test]
fn numbers_of_writing_in_their_order() {
    let bytes = header(&Machine::blank());
    let mut bad = bytes;
    bad[60] = 1;
    assert_eq!(written(&bad, &[], 0), Err(20));
    assert_eq!(written(&bytes, &vec![0; MEMORY - 1], 0), Err(21));
    assert_eq!(written(&bytes, &vec![0; MEMORY], 0), Err(22));
}
