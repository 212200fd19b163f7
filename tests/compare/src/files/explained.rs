//! Files explained: the stored ones, whose numbers are known, and others that are read as they are, whole and cut.

use super::stored::text;
use compare::calls::expect;
use compare::calls::files::FileChecker;
use compare::report::{Group, Outcome};
use reference::samples::Sample;
use std::fs;
use std::path::Path;

/// Bytes before the file in an input of the fuzz target.
const INPUT_FRONT: usize = 2;

/// A stored file: its number alone, no number of the table having anything else to tell. Without its last byte it is
/// explained too.
pub fn stored(
    group: &mut Group,
    check: &mut FileChecker,
    dir: &Path,
    samples: &[Sample],
) -> Outcome {
    for sample in samples {
        let name = sample.file_name();
        let tell = |what| format!("{name}: {what}");
        let file = fs::read(dir.join(&name)).map_err(text)?;
        let number = check.read_alone(group, &file).map_err(tell)?;
        expect(number, sample.number).map_err(tell)?;
        check.expect_block(0).map_err(tell)?;
        check.expect_figures(0, 0).map_err(tell)?;
        let cut = &file[..file.len() - 1];
        check.read_alone(group, cut).map_err(tell)?;
    }
    Ok(())
}

/// The good files of a folder, and each of them cut at every 97th place.
pub fn good(group: &mut Group, check: &mut FileChecker, dir: &Path) -> Outcome {
    for (name, file) in files(dir)? {
        if !name.ends_with(".z80") {
            continue;
        }
        let tell = |what| format!("{name}: {what}");
        expect(check.read(group, &file).map_err(tell)?, 0).map_err(tell)?;
        check.expect_block(0).map_err(tell)?;
        check.expect_figures(0, 0).map_err(tell)?;
        for end in (0..file.len()).step_by(97) {
            check.read_alone(group, &file[..end]).map_err(tell)?;
        }
    }
    Ok(())
}

/// Whatever the inputs of the fuzz target hold, taken for files.
pub fn inputs(group: &mut Group, check: &mut FileChecker, dir: &Path) -> Outcome {
    for (name, bytes) in files(dir)? {
        let tell = |what| format!("{name}: {what}");
        let file = bytes.get(INPUT_FRONT..).unwrap_or(&[]);
        check.read_alone(group, file).map_err(tell)?;
    }
    Ok(())
}

/// The files of a folder by name, each with its bytes.
fn files(dir: &Path) -> Result<Vec<(String, Vec<u8>)>, String> {
    let mut files = Vec::new();
    for entry in fs::read_dir(dir).map_err(text)? {
        let path = entry.map_err(text)?.path();
        files.push((path.display().to_string(), fs::read(&path).map_err(text)?));
    }
    files.sort();
    Ok(files)
}
