//! What document 02 says of SCS files, a test for each sentence.

mod offsets;
mod sound;

use super::*;
use crate::machine::{from_header, header, Machine, Version, HEADER};
use crate::memory::{images, Rng, MEMORY, PAGE};
use crate::refusal::number_and_offset;

/// The start of a file with this hardware number.
fn start(hardware: u8) -> Vec<u8> {
    [b"SamSnap!ASCD\x00\x62", &[hardware][..]].concat()
}

fn block(number: u8, data: &[u8]) -> Vec<u8> {
    let size = (data.len() as u32).to_le_bytes();
    [&[number][..], &size, data].concat()
}

/// A file of these parts after its start.
fn file(hardware: u8, parts: &[Vec<u8>]) -> Vec<u8> {
    [start(hardware), parts.concat()].concat()
}

/// A CPU block of 1, 2, 3 and so on, with interrupt mode 2 and both IFFs.
fn counting_cpu() -> Vec<u8> {
    let mut cpu: Vec<u8> = (1..=34).collect();
    (cpu[26], cpu[27]) = (2, 3);
    cpu
}

fn counting_ports() -> Vec<u8> {
    (0x81..0x94).collect()
}

fn answer_and_offset(file: &[u8]) -> (u32, u64) {
    let (mut area, mut bytes, mut offset) = (vec![0xA5; MEMORY], [0x5A; HEADER], 0xA5A5);
    let answer = read_bytes(file, &mut area, &mut bytes, &mut offset);
    let result = read(file);
    assert_eq!((answer, offset), number_and_offset(&result));
    let (machine, memory) = result.unwrap_or((Machine::blank(), vec![0; MEMORY]));
    assert!(area == memory && bytes == header(&machine));
    (answer, offset)
}

fn answer(file: &[u8]) -> u32 {
    answer_and_offset(file).0
}

/// The 128K machine of both counting blocks.
fn counted_machine() -> Machine {
    let mut sound = [0; 16];
    sound.copy_from_slice(&counting_ports()[3..]);
    let mut side = [0; 26];
    (side[1], side[2]) = (255, 255);
    Machine {
        model: Model::K128,
        a: 1,
        f: 2,
        bc: 0x0304,
        de: 0x0506,
        hl: 0x0708,
        alt_a: 9,
        alt_f: 10,
        alt_bc: 0x0B0C,
        alt_de: 0x0D0E,
        alt_hl: 0x0F10,
        ix: 0x1211,
        iy: 0x1413,
        pc: 0x1615,
        sp: 0x1817,
        i: 25,
        r: 26,
        interrupt_mode: 2,
        iff1: true,
        iff2: true,
        border: 1,
        paging: 0x82,
        chip: true,
        sound_select: 3,
        sound,
        side,
        ..Machine::blank()
    }
}

#[test]
fn every_field_stands_where_the_format_has_it() {
    let blocks = [
        block(3, &[]),
        block(1, &counting_cpu()),
        block(2, &counting_ports()),
    ];
    let (machine, _) = read(&file(2, &blocks)).expect("a good file");
    assert_eq!(machine, counted_machine());
    let (machine, _) = read(&file(1, &blocks)).expect("a good file");
    let due = Machine {
        model: Model::K48,
        paging: 0,
        ..counted_machine()
    };
    assert_eq!(machine, due);
}

#[test]
fn what_scs_does_not_hold_is_as_in_v1_but_for_the_chip() {
    let mut v1 = [0; 30];
    v1[6] = 1;
    let as_v1 = Machine {
        chip: true,
        ..from_header(Version::V1, &v1).expect("a v1 header")
    };
    let mut cpu = [0; 34];
    cpu[20] = 1;
    let parts = [block(3, &[]), block(1, &cpu), block(2, &[])];
    assert_eq!(read(&file(1, &parts)), Ok((as_v1, vec![0; MEMORY])));
}

#[test]
fn memory_goes_to_its_pages() {
    let data: Vec<u8> = (0..9).flat_map(|page| vec![page + 1; PAGE]).collect();
    let first_bytes = |hardware: u8, length: usize| -> Vec<u8> {
        let parts = [block(3, &data[..length]), block(2, &[]), block(1, &[])];
        let (_, memory) = read(&file(hardware, &parts)).expect("a good file");
        memory.chunks(PAGE).map(|page| page[0]).collect()
    };
    assert_eq!(first_bytes(1, 3 * PAGE), [3, 0, 2, 0, 0, 1, 0, 0]);
    assert_eq!(first_bytes(1, 9 * PAGE), [3, 0, 2, 0, 0, 1, 0, 0]);
    assert_eq!(first_bytes(1, PAGE + 1), [0, 0, 2, 0, 0, 1, 0, 0]);
    assert_eq!(first_bytes(2, 8 * PAGE), [1, 2, 3, 4, 5, 6, 7, 8]);
    assert_eq!(first_bytes(2, 9 * PAGE), [1, 2, 3, 4, 5, 6, 7, 8]);
    assert_eq!(first_bytes(2, PAGE), [1, 0, 0, 0, 0, 0, 0, 0]);
}

#[test]
fn numbers_of_the_start() {
    let good = file(1, &[block(3, &[]), block(1, &[]), block(2, &[])]);
    assert_eq!(answer(&good), 0);
    for end in 0..15 {
        assert_eq!(answer(&good[..end]), 2);
    }
    assert_eq!(answer(&good[..15]), 43);
    for at in 0..15 {
        let mut other = good.clone();
        other[at] ^= 0x80;
        let due = if (8..14).contains(&at) { 0 } else { 40 };
        assert_eq!(answer(&other), due);
    }
    for hardware in [0, 3, 255] {
        assert_eq!(answer(&start(hardware)), 40);
    }
    for first in [0, 1, 2, 4, 255] {
        assert_eq!(answer(&file(1, &[vec![first]])), 43);
    }
    let gzip = [&[0x1F, 0x8B][..], &good].concat();
    assert_eq!(answer(&gzip), 40);
}

#[test]
fn numbers_of_the_blocks() {
    let (memory, cpu, ports) = (block(3, &[7]), block(1, &[]), block(2, &[]));
    let of = |parts: &[&[u8]]| answer(&[&start(2), &parts.concat()[..]].concat());
    assert_eq!(of(&[&memory, &ports, &cpu]), 0);
    assert_eq!(of(&[&memory, &ports]), 41);
    assert_eq!(of(&[&memory, &cpu]), 41);
    assert_eq!(of(&[&memory]), 41);
    for twice in [&memory, &cpu, &ports] {
        assert_eq!(of(&[&memory, &cpu, &ports, twice]), 42);
        assert_eq!(of(&[&memory, &cpu, &ports, &[0], twice]), 0);
    }
    assert_eq!(of(&[&memory, &cpu, &cpu]), 42);
    for length in 1..5 {
        assert_eq!(of(&[&memory, &cpu, &ports, &cpu[..length]]), 8);
        assert_eq!(of(&[&memory, &cpu, &ports, &[0; 4][..length]]), 0);
    }
    assert_eq!(of(&[&memory, &ports, &[1, 1, 0, 0, 0]]), 8);
    assert_eq!(of(&[&memory, &ports, &[1, 255, 255, 255, 255]]), 8);
    assert_eq!(of(&[&memory, &ports, &cpu, &[1, 1, 0, 0, 0]]), 8);
    assert_eq!(of(&[&memory, &cpu, &cpu, &[9, 1, 0, 0, 0]]), 42);
    assert_eq!(of(&[&[3, 255, 255, 255, 255]]), 8);
    let skipped = [block(4, &[1, 2]), block(255, &[]), block(4, &[3])].concat();
    assert_eq!(
        of(&[&memory, &skipped, &ports, &skipped, &cpu, &skipped]),
        0
    );
    assert_eq!(of(&[&memory, &skipped, &skipped, &[77, 9, 0, 0, 0]]), 8);
}

#[test]
fn interrupt_mode_3_comes_last() {
    let mut cpu = counting_cpu();
    for mode in 0..=255 {
        cpu[26] = mode;
        let due = if mode % 4 == 3 { 5 } else { 0 };
        let parts = [block(3, &[]), block(1, &cpu), block(2, &[])];
        assert_eq!(answer(&file(1, &parts)), due);
    }
    assert_eq!(answer(&file(1, &[block(3, &[]), block(1, &cpu)])), 41);
    let short = [block(3, &[]), block(1, &cpu[..26]), block(2, &[])];
    assert_eq!(answer(&file(1, &short)), 0);
    let just = [block(3, &[]), block(1, &cpu[..27]), block(2, &[])];
    assert_eq!(answer(&file(1, &just)), 5);
}

/// A valid machine, random in everything.
fn random_machine(rng: &mut Rng, mode: u8) -> Machine {
    let mut bytes = rng.bytes(HEADER);
    bytes[34] = mode;
    bytes[29] &= 0xFE;
    bytes[56] %= 0x44;
    bytes[57] &= 3;
    bytes[60] = 0;
    from_header(Version::V3, &bytes).expect("a good header")
}

#[test]
fn what_is_written_is_read_back_but_for_what_scs_lacks() {
    let mut rng = Rng::new(9);
    for (_, memory) in images(10) {
        for mode in [0, 1, 3, 4, 5, 6] {
            let machine = random_machine(&mut rng, mode);
            assert!(machine.is_valid());
            let file = write(&machine, &memory);
            let (again, area) = read(&file).expect("our own file");
            assert_eq!(again, kept(&machine));
            assert!(again.is_valid() && kept(&again) == again);
            assert_eq!(write(&again, &area), file);
            match machine.model {
                Model::K48 => assert_eq!(file.len(), SCS_FILE_48K),
                Model::K128 => assert!(file.len() == SCS_FILE_128K && area == memory),
            }
        }
    }
}

#[test]
fn the_bytes_that_are_written() {
    let mut bytes = header(&Machine::blank());
    (bytes[34], bytes[38], bytes[39]) = (6, 0xF5, 0x77);
    (bytes[2], bytes[3], bytes[12], bytes[27]) = (0x34, 0x12, 0x0E, 1);
    let (mut out, mut length) = (vec![1; SCS_FILE_128K + 3], 9);
    let memory = vec![0x41; MEMORY];
    assert_eq!(write_bytes(&bytes, &memory, &mut out, &mut length), 0);
    assert_eq!(length, 131_160);
    assert_eq!(out[..20], *b"SamSnap!ASCD\x00\x62\x02\x03\x00\x00\x02\x00");
    assert_eq!(out[20..20 + MEMORY], memory);
    let rest = &out[20 + MEMORY..];
    assert_eq!(rest[..9], [1, 34, 0, 0, 0, 0, 0, 0x12, 0x34]);
    assert_eq!(rest[31..39], [0, 1, 0, 0, 0, 0, 0, 0]);
    assert_eq!(rest[39..48], [2, 19, 0, 0, 0, 7, 0, 5, 0x77]);
    assert_eq!(rest[48..], [0; 15 + 5 + 3]);
}

#[test]
fn numbers_of_writing_and_of_other_buffers() {
    let bytes = header(&Machine::blank());
    let mut bad = bytes;
    bad[60] = 1;
    let written = |bytes: &[u8], area: usize, room: usize| {
        let (mut out, mut length) = (vec![1; room], 9);
        let answer = write_bytes(bytes, &vec![0; area], &mut out, &mut length);
        assert!(answer == 0 || length == 0 && out == vec![0; room]);
        answer
    };
    assert_eq!(written(&bad, 0, 0), 20);
    assert_eq!(written(&bytes[..85], MEMORY, SCS_FILE_48K), 20);
    assert_eq!(written(&bytes, MEMORY - 1, 0), 21);
    assert_eq!(written(&bytes, MEMORY, SCS_FILE_48K - 1), 22);
    assert_eq!(written(&bytes, MEMORY, SCS_FILE_48K), 0);
    for length in [0, 85, 87] {
        let (mut area, mut short, mut offset) = (vec![1; 5], vec![1; length], 1);
        assert_eq!(read_bytes(&[], &mut area, &mut short, &mut offset), 20);
        assert!(area == [0; 5] && short == vec![0; length] && offset == 0);
    }
    let (mut area, mut short, mut offset) = (vec![1; MEMORY - 1], vec![1; HEADER], 1);
    assert_eq!(read_bytes(&[], &mut area, &mut short, &mut offset), 1);
    assert!(area == vec![0; MEMORY - 1] && short == bytes && offset == 0);
}
