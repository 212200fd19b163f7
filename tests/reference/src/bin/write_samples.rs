//! write_samples DIR: for each stored file its memory (NAME.raw) and its settings (NAME.txt), then the list
//! of names, kinds and ways of storing (list) and the table of expected answers (expected.txt).
#![forbid(unsafe_code)]

use reference::samples::{asked, samples};
use std::fs::write;
use std::path::Path;

fn main() -> std::io::Result<()> {
    let dir = std::env::args().nth(1).expect("a directory");
    let dir = Path::new(&dir);
    let (mut list, mut table) = (String::new(), String::new());
    for sample in samples() {
        let name = &sample.name;
        write(dir.join(format!("{name}.raw")), &sample.memory)?;
        write(dir.join(format!("{name}.txt")), asked(&sample))?;
        list += &format!("{name} {} {:?}\n", sample.kind, sample.storing);
        table += &format!("{}\n", sample.table_line());
    }
    write(dir.join("list"), list)?;
    write(dir.join("expected.txt"), table)
}
