//! Reading and writing of files of any format.

use super::explain::{explain_call, FigureCounts};
use super::formats::FileFormat;
use super::offsets::{OffsetCounts, PlaceCounts};
use super::seen::NUMBERS;
use super::{answer, cell_difference, expect, note, outcome};
use crate::lent::LentPart;
use crate::report::{hex, Group, Outcome};
use reference::machine::HEADER;
use reference::memory::{Rng, MEMORY};
use reference::refusal::ACCEPTED;
use reference::z80::ExplainFigures;

/// Makes every lent part dirty before a call and counts the answers given.
pub struct FileChecker {
    format: FileFormat,
    pub fills: Rng,
    area: LentPart,
    header: LentPart,
    out: LentPart,
    memory: Vec<u8>,
    file: Vec<u8>,
    pub reads: [u64; NUMBERS],
    pub writes: [u64; NUMBERS],
    pub offsets: OffsetCounts,
    pub places: PlaceCounts,
    pub figures: FigureCounts,
    pub longest: usize,
    /// The offset that the last read told.
    pub last_offset: u64,
    /// What the file of the last read was explained with.
    pub last_explained: ExplainFigures,
    /// The length of the file that the last accepted read was written to.
    pub last_length: usize,
}

impl FileChecker {
    pub fn new(format: FileFormat, seed: u64) -> FileChecker {
        let longest = format.longest;
        FileChecker {
            format,
            fills: Rng::new(seed),
            area: LentPart::new(MEMORY, 0),
            header: LentPart::new(HEADER, 0),
            out: LentPart::new(longest, 0),
            memory: vec![0; MEMORY],
            file: vec![0; longest],
            reads: [0; NUMBERS],
            writes: [0; NUMBERS],
            offsets: OffsetCounts::default(),
            places: PlaceCounts::default(),
            figures: FigureCounts::default(),
            longest: 0,
            last_offset: 0,
            last_explained: ExplainFigures::default(),
            last_length: 0,
        }
    }

    /// Reads a file into buffers of the right length. An accepted one is written and read again.
    pub fn read(&mut self, group: &mut Group, file: &[u8]) -> Result<u32, String> {
        self.read_into(group, file, MEMORY, HEADER)
    }

    /// The same without writing what was read.
    pub fn read_alone(&mut self, group: &mut Group, file: &[u8]) -> Result<u32, String> {
        self.read_once(group, file, MEMORY, HEADER)
    }

    /// Reads a file into an area and a header of these lengths, and answers the number. An accepted one is written and
    /// read again.
    pub fn read_into(
        &mut self,
        group: &mut Group,
        file: &[u8],
        area: usize,
        header: usize,
    ) -> Result<u32, String> {
        let number = self.read_once(group, file, area, header)?;
        if number == 0 {
            let (machine, memory) = self.last_read();
            let trip = self.round_trip(&machine, &memory);
            trip.map_err(|what| format!("read {}: {what}", hex(file)))?;
        }
        Ok(number)
    }

    /// Reads a file into areas and headers of right and wrong lengths, an area of `other` bytes among them: 20 comes before 1.
    pub fn read_into_others(&mut self, group: &mut Group, file: &[u8], other: usize) -> Outcome {
        for area in [0, 1, MEMORY - 1, MEMORY, MEMORY + 1, other] {
            for header in [0, 1, 85, 86, 87, 300] {
                let answer = self.read_into(group, file, area, header)?;
                match (header, area) {
                    (HEADER, MEMORY) => continue,
                    (HEADER, _) => expect(answer, 1)?,
                    _ => expect(answer, 20)?,
                }
            }
        }
        Ok(())
    }

    pub(super) fn read_once(
        &mut self,
        group: &mut Group,
        file: &[u8],
        area: usize,
        header: usize,
    ) -> Result<u32, String> {
        group.inputs += 1;
        let mut memory = std::mem::take(&mut self.memory);
        memory.resize(area, 0);
        let mut machine = vec![0xA5; header];
        let mut offset = self.fills.word();
        let number = (self.format.reference.0)(file, &mut memory, &mut machine, &mut offset);
        self.reads[number as usize] += 1;
        self.offsets.add(number, offset);
        self.last_offset = offset;
        let outcome = self.read_call(file, (number, offset), &memory, &machine);
        self.memory = memory;
        let read = match (area, header) {
            (MEMORY, HEADER) => Some((number, offset)),
            _ => None,
        };
        let outcome = outcome.and_then(|()| self.explain(file, read));
        let tell = |what| format!("read {} into {area} and {header} bytes: {what}", hex(file));
        outcome.map(|()| number).map_err(tell)
    }

    /// Explains a file where the format has that. If it was not read into buffers of the right length, it is read now.
    fn explain(&mut self, file: &[u8], read: Option<(u32, u64)>) -> Outcome {
        let Some(calls) = self.format.explaining else {
            return Ok(());
        };
        let read = read.unwrap_or_else(|| {
            self.area.renew(MEMORY, self.fills.word());
            self.header.renew(HEADER, self.fills.word());
            let (area, header) = (self.area.part_mut(), self.header.part_mut());
            let mut offset = self.fills.word();
            let number = (self.format.library.0)(file, area, header, &mut offset);
            (number, offset)
        });
        let told = explain_call(calls, &mut self.fills, file, read);
        self.last_explained = told.map_err(|what| format!("explained: {what}"))?;
        self.figures.add(&self.last_explained);
        Ok(())
    }

    /// One call of read, with the offset between two cells that must stay.
    fn read_call(
        &mut self,
        file: &[u8],
        (number, offset): (u32, u64),
        memory: &[u8],
        machine: &[u8],
    ) -> Outcome {
        let source = LentPart::holding(file, self.fills.word());
        self.area.renew(memory.len(), self.fills.word());
        self.header.renew(machine.len(), self.fills.word());
        let (area, header) = (&mut self.area, &mut self.header);
        let (guard, dirty) = (self.fills.word(), self.fills.word());
        let mut cells = [guard, dirty, guard];
        let read = self.format.library.0;
        let given = read(
            source.part(),
            area.part_mut(),
            header.part_mut(),
            &mut cells[1],
        );
        let mut wrong = Vec::new();
        answer(&mut wrong, given, number);
        note(&mut wrong, "offset", cell_difference(cells, guard, offset));
        note(&mut wrong, "area", self.area.difference(memory));
        note(&mut wrong, "header", self.header.difference(machine));
        note(&mut wrong, "file", source.difference(file));
        outcome(wrong)
    }

    /// What was read is written, and read again: the same header and memory.
    fn round_trip(&mut self, machine: &[u8], memory: &[u8]) -> Outcome {
        let mut file = self.write_call(machine, memory, self.format.longest)?.1;
        let outcome = self.read_call(&file, (ACCEPTED, 0), memory, machine);
        self.last_length = file.len();
        self.longest = self.longest.max(self.last_length);
        file.clear();
        self.file = file;
        outcome.map_err(|what| format!("read again: {what}"))
    }

    /// The header and the memory of the last accepted read.
    pub fn last_read(&self) -> (Vec<u8>, Vec<u8>) {
        (self.header.part().to_vec(), self.area.part().to_vec())
    }

    /// The header of the last accepted read.
    pub fn last_header(&self) -> &[u8] {
        self.header.part()
    }

    /// Writes into an output of `room` bytes, and answers the number.
    pub fn write_into(
        &mut self,
        group: &mut Group,
        machine: &[u8],
        memory: &[u8],
        room: usize,
    ) -> Result<u32, String> {
        group.inputs += 1;
        let (number, file) = self.write_call(machine, memory, room)?;
        self.file = file;
        Ok(number)
    }

    /// One call of write: the number and the file.
    fn write_call(
        &mut self,
        machine: &[u8],
        memory: &[u8],
        room: usize,
    ) -> Result<(u32, Vec<u8>), String> {
        let mut file = std::mem::take(&mut self.file);
        file.resize(room, 0);
        let mut length = 0;
        let number = (self.format.reference.1)(machine, memory, &mut file, &mut length);
        self.writes[number as usize] += 1;
        let source = LentPart::holding(machine, self.fills.word());
        self.area.renew(memory.len(), self.fills.word());
        self.area.part_mut().copy_from_slice(memory);
        self.out.renew(room, self.fills.word());
        let dirty = self.fills.word();
        let mut cells = [dirty; 3];
        let (area, out) = (self.area.part(), self.out.part_mut());
        let given = (self.format.library.1)(source.part(), area, out, &mut cells[1]);
        let mut wrong = Vec::new();
        answer(&mut wrong, given, number);
        note(&mut wrong, "length", cell_difference(cells, dirty, length));
        note(&mut wrong, "output", self.out.difference(&file));
        note(&mut wrong, "area", self.area.difference(memory));
        note(&mut wrong, "header", source.difference(machine));
        let tell = |what| format!("write {} into {room} bytes: {what}", hex(machine));
        outcome(wrong).map_err(tell)?;
        file.truncate(length as usize);
        Ok((number, file))
    }

    /// Prints the counts. Each number was told with an offset exactly where it has one, and with enough different ones.
    pub fn offsets_seen(&self, least: usize) -> Outcome {
        self.offsets.all(self.format.with_offset, least)
    }

    /// Prints the counts. Reading and writing gave each of their numbers and no other, and enough files were read.
    pub fn numbers_seen(&self, least_files: u64) -> Outcome {
        let files: u64 = self.reads.iter().sum();
        let reads = expect_numbers("read", &self.reads, self.format.numbers);
        let writes = expect_numbers("write", &self.writes, &[0, 20, 21, 22]);
        println!("    {files} files read");
        match files < least_files {
            true => Err(format!("only {files} files were read")),
            false => reads.and(writes),
        }
    }
}

/// Prints how often a call gave each number: each of `numbers`, and no other.
fn expect_numbers(call: &str, counts: &[u64; NUMBERS], numbers: &[usize]) -> Outcome {
    let given = (0..NUMBERS).filter(|n| counts[*n] > 0);
    let list: Vec<String> = given.map(|n| format!("{n}: {}", counts[n])).collect();
    println!("    {call}  {}", list.join(", "));
    match (0..NUMBERS).find(|n| numbers.contains(n) != (counts[*n] > 0)) {
        Some(n) => Err(format!("{call} answered {n} {} times", counts[n])),
        None => Ok(()),
    }
}
