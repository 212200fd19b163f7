//! One call on any header, area, log and numbers, compared with the rules.

use super::library::Library;
use super::seen::{CountedFunction, NumberCounts};
use super::{answer, note, outcome};
use crate::report::{hex, Group, Outcome};
use reference::journal::{call, Buffers, Call, Step};
use reference::machine::HEADER;
use reference::memory::MEMORY;

/// Both sides of a comparison. A group changes what is lent, but the area only through the checker.
pub struct JournalChecker {
    pub library: Library,
    pub seen: NumberCounts,
    pub lent: Buffers,
}

impl JournalChecker {
    pub fn new(seed: u64) -> JournalChecker {
        let lent = Buffers {
            header: vec![0; HEADER],
            area: vec![0; MEMORY],
            log: Vec::new(),
            standing: 0,
            total: 0,
        };
        JournalChecker {
            library: Library::new(seed),
            seen: NumberCounts::default(),
            lent,
        }
    }

    /// The area of both sides from now on.
    pub fn lend_area(&mut self, area: Vec<u8>) {
        self.library.lend_area(&area);
        self.lent.area = area;
    }

    /// Gives the place that a step names a value on both sides.
    pub fn put(&mut self, step: &Step, value: u16) {
        self.lent.put(step, value);
        if step.tag == 1 {
            let place = usize::from(step.index) * 16_384 + usize::from(step.offset);
            self.library.area.part_mut()[place] = value as u8;
        }
    }

    /// Starts a dirty log of this length: it becomes all zero, and both numbers 0.
    pub fn start(&mut self, group: &mut Group, length: usize) -> Outcome {
        group.inputs += 1;
        self.lent.log = vec![0; length];
        (self.lent.standing, self.lent.total) = (0, 0);
        let given = self.library.start(length);
        self.seen.add(CountedFunction::Start, given);
        let mut wrong = Vec::new();
        answer(&mut wrong, given, 0);
        let log = self.library.log.difference(&self.lent.log);
        note(&mut wrong, "log", log);
        wrong.extend(self.library.numbers(0, 0));
        outcome(wrong).map_err(|what| format!("log of {length} bytes: {what}"))
    }

    /// Makes a call on what is lent, and answers the number.
    pub fn call(&mut self, group: &mut Group, asked: Call) -> Result<u32, String> {
        group.inputs += 1;
        let before = &self.lent;
        let (standing, total) = (before.standing, before.total);
        let library = &mut self.library;
        library.lend(&before.header, &before.log, standing, total);
        let (header, log) = (before.header.clone(), before.log.clone());
        let number = call(&mut self.lent, asked);
        let given = library.call(asked);
        self.seen.add(CountedFunction::of(asked), given);
        let mut wrong = Vec::new();
        answer(&mut wrong, given, number);
        wrong.extend(library.differences(&self.lent));
        let tell = |what| {
            let (header, log) = (hex(&header), hex(&log));
            let lengths = format!("area of {} bytes", self.lent.area.len());
            let numbers = format!("standing {standing}, total {total}");
            format!("{asked:02X?}: {what}: header {header}, {lengths}, log {log}, {numbers}")
        };
        outcome(wrong).map(|()| number).map_err(tell)
    }

    /// Makes a call whose number the group knows before.
    pub fn expect(&mut self, group: &mut Group, asked: Call, number: u32) -> Outcome {
        let answer = self.call(group, asked)?;
        if answer == number {
            return Ok(());
        }
        Err(format!("the reference answers {answer}, not {number}"))
    }
}
