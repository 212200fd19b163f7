//! The stored files that are timed.

use reference::memory::PAGE;
use reference::samples::samples;
use reference::z80::packed_blocks;

pub struct StoredFile {
    pub name: String,
    /// The file, and two bytes of room that libspectrum needs.
    pub file_and_room: Vec<u8>,
    pub header: Vec<u8>,
    pub memory: Vec<u8>,
}

/// A packed block as it is stored, and the page that it stands for.
pub struct Packed<'a> {
    pub block: &'a [u8],
    pub page: &'a [u8],
}

impl StoredFile {
    pub fn file(&self) -> &[u8] {
        &self.file_and_room[..self.file_and_room.len() - 2]
    }

    pub fn pages(&self) -> impl Iterator<Item = &[u8]> {
        self.memory.chunks(PAGE)
    }

    pub fn packed(&self) -> impl Iterator<Item = Packed<'_>> {
        let blocks = packed_blocks(self.file()).expect("an accepted file");
        blocks.into_iter().map(|(page, block)| Packed {
            block,
            page: &self.memory[page * PAGE..][..PAGE],
        })
    }
}

/// The ten 128K files of the images.
pub fn all(dir: &str) -> Vec<StoredFile> {
    let mut files = Vec::new();
    for sample in samples().into_iter().take(10) {
        let path = format!("{dir}/{}", sample.file_name());
        let mut file = std::fs::read(&path).expect(&path);
        file.extend([0, 0]);
        files.push(StoredFile {
            name: sample.name,
            file_and_room: file,
            header: reference::machine::header(&sample.machine).to_vec(),
            memory: sample.memory,
        });
    }
    files
}
