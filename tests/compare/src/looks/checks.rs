//! One look at a machine by the library, compared with the reference: the number, every figure and what lies beside it.

use super::seen::{Look, LookCounts};
use compare::calls::{answer, note, outcome};
use compare::ffi_snapshot as ffi;
use compare::lent::LentPart;
use compare::report::{hex, Group, Outcome};
use reference::machine::looks;
use reference::memory::Rng;
use std::fmt::Debug;
use std::hint::black_box;

/// Two bytes that a call sets, at 1 and 3, between cells that must stay.
type ByteCells = [u8; 5];

/// A word that a call sets, at 1, between cells that must stay.
type WordCells = [u16; 3];

/// A header between guards, and a copy of it that no call sees.
pub struct LentHeader {
    bytes: Vec<u8>,
    lent: LentPart,
}

/// Makes the figures dirty before every call, and counts what was answered.
pub struct LookChecker {
    fills: Rng,
    pub seen: LookCounts,
}

impl LookChecker {
    pub fn new(seed: u64) -> LookChecker {
        LookChecker {
            fills: Rng::new(seed),
            seen: LookCounts::default(),
        }
    }

    pub fn lend(&mut self, header: &[u8]) -> LentHeader {
        LentHeader {
            bytes: header.to_vec(),
            lent: LentPart::holding(header, self.fills.word()),
        }
    }

    pub fn model(&mut self, group: &mut Group, at: &LentHeader) -> Outcome {
        group.inputs += 1;
        let (number, kind) = looks::kind(&at.bytes);
        let (mut bytes, due) = self.bytes([kind.model, kind.attachment]);
        let [_, model, _, attachment, _] = &mut bytes;
        let given = ffi::model(at.lent.part(), model, attachment);
        let bytes = black_box(bytes);
        self.seen.add(Look::Model, given, [bytes[1], bytes[3]]);
        let mut wrong = Vec::new();
        answer(&mut wrong, given, number);
        figures(&mut wrong, "model and attachment", bytes, due);
        outcome(wrong).map_err(|what| at.tell("model", what))
    }

    pub fn pair(&mut self, group: &mut Group, at: &LentHeader, pair: u8) -> Outcome {
        group.inputs += 1;
        let (number, value) = looks::pair(&at.bytes, pair);
        let (mut words, due) = self.words(value);
        let given = ffi::pair(at.lent.part(), pair, &mut words[1]);
        self.seen.add(Look::Pair, given, [pair, 0]);
        let mut wrong = Vec::new();
        answer(&mut wrong, given, number);
        figures(&mut wrong, "value", black_box(words), due);
        outcome(wrong).map_err(|what| at.tell(&format!("pair {pair}"), what))
    }

    pub fn place(&mut self, group: &mut Group, at: &LentHeader, address: u16) -> Outcome {
        group.inputs += 1;
        let (number, place) = looks::location(&at.bytes, address);
        let (mut bytes, due_bytes) = self.bytes([place.in_rom, place.page]);
        let (mut words, due_words) = self.words(place.offset);
        let [_, in_rom, _, page, _] = &mut bytes;
        let given = ffi::place(at.lent.part(), address, in_rom, page, &mut words[1]);
        let bytes = black_box(bytes);
        self.seen.add(Look::Place, given, [bytes[1], bytes[3]]);
        let mut wrong = Vec::new();
        answer(&mut wrong, given, number);
        figures(&mut wrong, "in_rom and page", bytes, due_bytes);
        figures(&mut wrong, "offset", black_box(words), due_words);
        outcome(wrong).map_err(|what| at.tell(&format!("address {address:04X}"), what))
    }

    /// Two bytes to lend, each another one than it should be after the call, and all cells as they should be then.
    fn bytes(&mut self, due: [u8; 2]) -> (ByteCells, ByteCells) {
        let [a, b, c, first, second, ..] = self.fills.word().to_le_bytes();
        let other = [first.max(1) ^ due[0], second.max(1) ^ due[1]];
        let cells = |figures: [u8; 2]| [a, figures[0], b, figures[1], c];
        (cells(other), cells(due))
    }

    /// The same of a word, other in both its bytes.
    fn words(&mut self, due: u16) -> (WordCells, WordCells) {
        let [a, b, c, d, low, high, ..] = self.fills.word().to_le_bytes();
        let other = due ^ u16::from_le_bytes([low.max(1), high.max(1)]);
        let [before, after] = [[a, b], [c, d]].map(u16::from_le_bytes);
        ([before, other, after], [before, due, after])
    }
}

fn figures<T: Debug + PartialEq>(wrong: &mut Vec<String>, name: &str, given: T, due: T) {
    if given != due {
        wrong.push(format!(
            "{name}, and beside: {given:02X?}, should be {due:02X?}"
        ));
    }
}

impl LentHeader {
    /// No call has changed the header or what lies beside it.
    pub fn unchanged(&self) -> Outcome {
        let mut wrong = Vec::new();
        note(&mut wrong, "header", self.lent.difference(&self.bytes));
        outcome(wrong).map_err(|what| self.tell("after the looks", what))
    }

    fn tell(&self, call: &str, what: String) -> String {
        format!("{call}: {what}: header {}", hex(&self.bytes))
    }
}
