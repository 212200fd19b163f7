//! Files that the library writes, for the second program to read, with the memory and the settings that
//! it must find in them.

use super::stored::text;
use compare::ffi_snapshot;
use compare::report::Outcome;
use reference::machine::{header, HEADER};
use reference::samples::{settings, BlockStoring, Sample};
use reference::z80::{write, LONGEST_FILE};
use std::fs;
use std::path::Path;

/// Writes every accepted sample into `out`: NAME.z80, NAME.raw and NAME.txt.
pub fn all(out: &Path, dir: &Path, samples: &[Sample]) -> Outcome {
    fs::create_dir_all(out).map_err(text)?;
    for sample in samples.iter().filter(|sample| sample.number == 0) {
        let file = written(sample).map_err(|what| format!("{}: {what}", sample.name))?;
        if sample.storing == BlockStoring::Shorter {
            same_blocks(dir, sample, &file)?;
        }
        let put =
            |end: &str, bytes: &[u8]| fs::write(out.join(format!("{}.{end}", sample.name)), bytes);
        put("z80", &file).map_err(text)?;
        put("raw", &sample.memory).map_err(text)?;
        put("txt", settings(&sample.machine).as_bytes()).map_err(text)?;
    }
    Ok(())
}

/// The library's file of a sample, which is the reference's too.
fn written(sample: &Sample) -> Result<Vec<u8>, String> {
    let mut file = vec![0xA5; LONGEST_FILE];
    let mut length = 0;
    let machine = header(&sample.machine);
    let number = ffi_snapshot::write(&machine, &sample.memory, &mut file, &mut length);
    file.truncate(length as usize);
    if number != 0 || file != write(&sample.machine, &sample.memory) {
        return Err(format!("answer {number}, length {length}, or other bytes"));
    }
    Ok(file)
}

/// Where the second program packs what becomes shorter, its blocks are the library's, byte for byte.
fn same_blocks(dir: &Path, sample: &Sample, file: &[u8]) -> Outcome {
    let stored = fs::read(dir.join(sample.file_name())).map_err(text)?;
    if stored[HEADER..] != file[HEADER..] {
        return Err(format!(
            "{}: other blocks than the stored file",
            sample.name
        ));
    }
    Ok(())
}
