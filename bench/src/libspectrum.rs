//! Safe calls of libspectrum, where it is installed.
#![allow(unsafe_code)]

mod c {
    #[repr(C)]
    pub struct Snap {
        _private: [u8; 0],
    }

    #[link(name = "spectrum_shim", kind = "static")]
    extern "C" {
        pub fn shim_start() -> i32;
        pub fn shim_read(file: *const u8, length: usize) -> *mut Snap;
        pub fn shim_free(snap: *mut Snap);
        pub fn shim_page(snap: *mut Snap, page: i32) -> *const u8;
        pub fn shim_write(snap: *mut Snap) -> usize;
    }

    #[link(name = "spectrum")]
    extern "C" {}
}

/// A snapshot in libspectrum's memory.
pub struct LibspectrumSnapshot(*mut c::Snap);

/// Readies the library; false if it cannot be.
pub fn start() -> bool {
    // SAFETY: it takes nothing.
    unsafe { c::shim_start() == 0 }
}

/// Reads a file that is followed by two bytes of room, since a block's end is overrun by two.
pub fn read(file_and_room: &[u8]) -> Option<LibspectrumSnapshot> {
    let length = file_and_room.len().checked_sub(2)?;
    // SAFETY: the slice is valid for its length, and two bytes more are read at most.
    let snap = unsafe { c::shim_read(file_and_room.as_ptr(), length) };
    (!snap.is_null()).then_some(LibspectrumSnapshot(snap))
}

impl LibspectrumSnapshot {
    /// The bytes of a RAM page from 0 to 7.
    pub fn page(&self, page: usize) -> Option<&[u8]> {
        // SAFETY: the snapshot lives, and a page that is there has 16,384 bytes.
        unsafe {
            let bytes = c::shim_page(self.0, page as i32);
            (!bytes.is_null()).then(|| std::slice::from_raw_parts(bytes, 16_384))
        }
    }

    /// Writes the snapshot and answers the file's length; the file itself is freed at once.
    pub fn write(&self) -> usize {
        // SAFETY: the snapshot lives.
        unsafe { c::shim_write(self.0) }
    }
}

impl Drop for LibspectrumSnapshot {
    fn drop(&mut self) {
        // SAFETY: it came from shim_read and is freed once.
        unsafe { c::shim_free(self.0) }
    }
}
