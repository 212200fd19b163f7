//! Stored files: the library reads what went in, or gives the expected number.

use compare::calls::cell_difference;
use compare::calls::formats::ReadCall;
use compare::ffi_snapshot;
use compare::lent::LentPart;
use compare::report::{Group, Outcome};
use reference::machine::{header, Machine, HEADER};
use reference::memory::MEMORY;
use reference::samples::Sample;
use reference::z80::read_bytes;
use std::fs;
use std::path::Path;

pub fn text<E: std::fmt::Display>(error: E) -> String {
    error.to_string()
}

/// The table is the one of the samples, and every stored file is in it.
pub fn table(dir: &Path, samples: &[Sample]) -> Outcome {
    let table = fs::read_to_string(dir.join("expected.txt")).map_err(text)?;
    let expected: Vec<String> = samples.iter().map(Sample::table_line).collect();
    if table.lines().ne(expected.iter().map(String::as_str)) {
        return Err("expected.txt is not the table of the samples".into());
    }
    for entry in fs::read_dir(dir).map_err(text)? {
        let name = entry.map_err(text)?.file_name();
        let name = name.to_string_lossy();
        let known = samples.iter().any(|sample| sample.file_name() == name);
        if name.ends_with(".z80") && !known {
            return Err(format!("{name} is not in the table"));
        }
    }
    Ok(())
}

/// Both readers, each with how its buffers are dirty before.
const COMPARED_READERS: [(&str, ReadCall, u64); 2] = [
    ("library", ffi_snapshot::read, 5),
    ("reference", read_bytes, 7),
];

/// The library and the reference read the file alike, and as it was made. No number of the table has an offset.
pub fn read(group: &mut Group, dir: &Path, sample: &Sample) -> Outcome {
    let file = fs::read(dir.join(sample.file_name())).map_err(text)?;
    group.inputs += 1;
    let (memory, machine) = match sample.number {
        0 => (sample.memory.clone(), header(&sample.machine)),
        _ => (vec![0; MEMORY], header(&Machine::blank())),
    };
    for (who, read, fill) in COMPARED_READERS {
        let (mut area, mut bytes) = (LentPart::new(MEMORY, fill), LentPart::new(HEADER, fill + 1));
        let mut cells = [fill; 3];
        let number = read(&file, area.part_mut(), bytes.part_mut(), &mut cells[1]);
        if number != sample.number {
            return Err(format!("{who} answers {number}"));
        }
        if let Some(what) = cell_difference(cells, fill, 0) {
            return Err(format!("{who}: offset: {what}"));
        }
        if let Some(what) = area.difference(&memory) {
            return Err(format!("{who}: area: {what}"));
        }
        if let Some(what) = bytes.difference(&machine) {
            return Err(format!("{who}: header: {what}"));
        }
    }
    Ok(())
}
