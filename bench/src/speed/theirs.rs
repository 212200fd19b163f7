//! libspectrum as a contender, where it is installed.

#[cfg(not(libspectrum))]
pub use absent::{check, reader, writer};
#[cfg(libspectrum)]
pub use present::{check, reader, writer};

#[cfg(libspectrum)]
mod present {
    use crate::libspectrum::{read, start};
    use crate::speed::StoredFile;
    use bench::timing::Contender;
    use std::hint::black_box;

    /// It reads the same memory and writes a file of the same length.
    pub fn check(stored: &StoredFile, length: usize) {
        assert!(start());
        let snap = read(&stored.file_and_room).expect("a snapshot");
        for (page, bytes) in stored.pages().enumerate() {
            assert!(snap.page(page) == Some(bytes));
        }
        assert_eq!(snap.write(), length);
    }

    pub fn reader(files: &[StoredFile]) -> Option<Contender<'_>> {
        Some(Box::new(move || {
            for stored in files {
                black_box(read(black_box(&stored.file_and_room)));
            }
        }))
    }

    /// Writes snapshots that are in its memory already.
    pub fn writer(files: &[StoredFile]) -> Option<Contender<'_>> {
        let snaps: Vec<_> = files.iter().map(|f| read(&f.file_and_room)).collect();
        Some(Box::new(move || {
            for snap in snaps.iter().flatten() {
                black_box(snap.write());
            }
        }))
    }
}

#[cfg(not(libspectrum))]
mod absent {
    use crate::speed::StoredFile;
    use bench::timing::Contender;

    pub fn check(_: &StoredFile, _: usize) {}

    pub fn reader(_: &[StoredFile]) -> Option<Contender<'_>> {
        None
    }

    pub fn writer(_: &[StoredFile]) -> Option<Contender<'_>> {
        None
    }
}
