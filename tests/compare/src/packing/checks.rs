//! One call of the library, compared with the reference: answer and every byte.

use crate::ffi_packing;
use crate::ffi_step::{self, CODE_BYTES};
use compare::calls::{answer, cell_difference, note, outcome};
use compare::lent::LentPart;
use compare::report::{hex, Group, Outcome};
use reference::memory::Rng;
use reference::packing::{pack_step, packed, unpacked, UnpackAnswer, UnpackedBytes};
use std::collections::BTreeSet;

/// Makes a fresh dirty fill for every call and counts the answers given.
pub struct PackingChecker {
    fills: Rng,
    pub unpack_answers: [u64; 3],
    pub would_answers: [u64; 4],
    pub pack_answers: [u64; 2],
    /// No step, and the four cases.
    pub step_answers: [u64; 5],
    /// The wrong lengths that were found.
    pub lengths: BTreeSet<u64>,
}

/// The answer, the numbers that go with it, and the bytes of the part after it.
pub struct Expected {
    pub answer: u32,
    /// The place of the first bad code and the length found, or the packed length alone, or what a step writes and takes.
    pub numbers: Vec<u64>,
    pub part: Vec<u8>,
}

/// The least length that is not asked for without a part.
const DUE_TOO_LARGE: u64 = 65_536;

/// The answer, the place of the first bad code and the length found.
fn unpack_figures(answer: UnpackAnswer) -> (u32, u64, u64) {
    match answer {
        UnpackAnswer::Good => (0, 0, 0),
        UnpackAnswer::Malformed(place) => (1, place as u64, 0),
        UnpackAnswer::WrongLength(found) => (2, 0, found as u64),
    }
}

fn expected_unpack(result: &UnpackedBytes, length: usize) -> (UnpackAnswer, Vec<u8>) {
    match result {
        UnpackedBytes::Malformed(place) => (UnpackAnswer::Malformed(*place), vec![0; length]),
        UnpackedBytes::Bytes(bytes) => match UnpackAnswer::of_length(bytes.len(), length) {
            UnpackAnswer::Good => (UnpackAnswer::Good, bytes.clone()),
            refused => (refused, vec![0; length]),
        },
    }
}

fn expected_pack(code: &[u8], length: usize) -> Expected {
    let fits = code.len() <= length;
    let mut part = if fits { code.to_vec() } else { Vec::new() };
    let number = part.len() as u64;
    part.resize(length, 0);
    Expected {
        answer: u32::from(!fits),
        numbers: vec![number],
        part,
    }
}

/// `length`, one shorter, one longer and 0, each once.
fn around(length: usize) -> Vec<usize> {
    let mut all = vec![length, length.saturating_sub(1), length + 1, 0];
    all.sort_unstable();
    all.dedup();
    all
}

impl PackingChecker {
    pub fn new(seed: u64) -> PackingChecker {
        PackingChecker {
            fills: Rng::new(seed),
            unpack_answers: [0; 3],
            would_answers: [0; 4],
            pack_answers: [0; 2],
            step_answers: [0; 5],
            lengths: BTreeSet::new(),
        }
    }

    /// Unpacks into parts of exact length, one shorter, one longer, 0 and `others`.
    pub fn unpack(&mut self, group: &mut Group, src: &[u8], others: &[usize]) -> Outcome {
        group.inputs += 1;
        let result = unpacked(src);
        let mut lengths = match &result {
            UnpackedBytes::Bytes(bytes) => around(bytes.len()),
            UnpackedBytes::Malformed(_) => vec![0, 1, src.len()],
        };
        lengths.extend(others);
        let source = LentPart::holding(src, self.fills.word());
        for length in lengths {
            let (answer, part) = expected_unpack(&result, length);
            self.unpack_call(&source, src, answer, part)?;
        }
        Ok(())
    }

    /// One call of unpack on `source`, which holds `src`, and the same without a part.
    pub fn unpack_call(
        &mut self,
        source: &LentPart,
        src: &[u8],
        told: UnpackAnswer,
        part: Vec<u8>,
    ) -> Outcome {
        let (answer, place, found) = unpack_figures(told);
        self.unpack_answers[answer as usize] += 1;
        self.lengths.extend((answer == 2).then_some(found));
        let due = part.len() as u64;
        let expected = Expected {
            answer,
            numbers: vec![place, found],
            part,
        };
        let unpack = |src: &[u8], part: &mut [u8], cells: &mut [u64]| {
            let [_, place, _, found, _] = cells else {
                return u32::MAX;
            };
            ffi_packing::unpack(src, part, place, found)
        };
        self.call("unpack", unpack, source, src, &expected)?;
        self.would_call(source, src, due, told)
    }

    /// Asks what unpacking into a part of `due` bytes would give.
    pub fn would_call(
        &mut self,
        source: &LentPart,
        src: &[u8],
        due: u64,
        told: UnpackAnswer,
    ) -> Outcome {
        let (answer, place, found) = match due < DUE_TOO_LARGE {
            true => unpack_figures(told),
            false => (3, 0, 0),
        };
        self.would_answers[answer as usize] += 1;
        let expected = Expected {
            answer,
            numbers: vec![place, found],
            part: Vec::new(),
        };
        let would_unpack = |src: &[u8], _: &mut [u8], cells: &mut [u64]| {
            let [_, place, _, found, _] = cells else {
                return u32::MAX;
            };
            ffi_packing::would_unpack(src, due, place, found)
        };
        let name = format!("without a part of {due} bytes: unpack");
        self.call(&name, would_unpack, source, src, &expected)
    }

    /// One call on `source`, which holds `src`, with each of its numbers between two cells that must stay.
    fn call(
        &mut self,
        name: &str,
        call: impl Fn(&[u8], &mut [u8], &mut [u64]) -> u32,
        source: &LentPart,
        src: &[u8],
        expected: &Expected,
    ) -> Outcome {
        let room = expected.part.len();
        let mut part = LentPart::new(room, self.fills.word());
        let guard = self.fills.word();
        let mut cells = vec![guard; 2 * expected.numbers.len() + 1];
        for number in 0..expected.numbers.len() {
            cells[2 * number + 1] = self.fills.word();
        }
        let given = call(source.part(), part.part_mut(), &mut cells);
        let mut wrong = Vec::new();
        answer(&mut wrong, given, expected.answer);
        for (at, number) in expected.numbers.iter().enumerate() {
            let cells = [cells[2 * at], cells[2 * at + 1], cells[2 * at + 2]];
            note(&mut wrong, "number", cell_difference(cells, guard, *number));
        }
        note(&mut wrong, "part", part.difference(&expected.part));
        note(&mut wrong, "source", source.difference(src));
        outcome(wrong).map_err(|what| format!("{name} {} into {room} bytes: {what}", hex(src)))
    }

    /// Packs into parts of exact length, one shorter, one longer, 0 and `others`,
    /// asks for the packed length, and unpacks what was packed.
    pub fn pack(&mut self, group: &mut Group, src: &[u8], others: &[usize]) -> Outcome {
        group.inputs += 1;
        let code = packed(src);
        let source = LentPart::holding(src, self.fills.word());
        let length = ffi_packing::packed_len(source.part());
        if length != code.len() as u64 {
            let wrong = format!("{length}, should be {}", code.len());
            return Err(format!("packed length of {}: {wrong}", hex(src)));
        }
        let mut lengths = around(code.len());
        lengths.extend(others);
        let pack = |src: &[u8], part: &mut [u8], cells: &mut [u64]| {
            ffi_packing::pack(src, part, &mut cells[1])
        };
        for length in lengths {
            let expected = expected_pack(&code, length);
            self.pack_answers[expected.answer as usize] += 1;
            self.call("pack", pack, &source, src, &expected)?;
        }
        let source = LentPart::holding(&code, self.fills.word());
        self.unpack_call(&source, &code, UnpackAnswer::Good, src.to_vec())
    }

    /// Takes the step at each of these places.
    pub fn steps(
        &mut self,
        group: &mut Group,
        src: &[u8],
        places: impl IntoIterator<Item = usize>,
    ) -> Outcome {
        group.inputs += 1;
        let source = LentPart::holding(src, self.fills.word());
        let mut places = places.into_iter();
        places.try_for_each(|at| self.step_call(&source, src, at as u64, CODE_BYTES))
    }

    /// The step at a place of `source`, which holds `src`, into `room` bytes.
    pub fn step_call(&mut self, source: &LentPart, src: &[u8], at: u64, room: usize) -> Outcome {
        let due = match room {
            CODE_BYTES => pack_step(src, at as usize),
            _ => None,
        };
        let (answer, mut part, taken) = match due {
            Some(step) => (step.case, step.written, step.taken),
            None => (0, Vec::new(), 0),
        };
        self.step_answers[answer as usize] += 1;
        let numbers = vec![part.len() as u64, taken as u64];
        part.resize(room, 0);
        let expected = Expected {
            answer,
            numbers,
            part,
        };
        let step = |src: &[u8], part: &mut [u8], cells: &mut [u64]| {
            let [_, size, _, taken, _] = cells else {
                return u32::MAX;
            };
            ffi_step::step(src, at, part, size, taken)
        };
        let called = self.call("step of", step, source, src, &expected);
        called.map_err(|what| format!("at {at}: {what}"))
    }
}
