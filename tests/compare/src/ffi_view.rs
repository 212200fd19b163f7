//! The C function of libview_exports.a and a safe call of it.
#![allow(unsafe_code)]

use compare::ffi_snapshot::Viewed;

mod c {
    #[link(name = "view_exports", kind = "static")]
    extern "C" {
        pub fn view_page(
            head: *const u8,
            head_len: usize,
            rom: *const u8,
            rom_len: usize,
            area: *const u8,
            area_len: usize,
            page: u8,
            out: *mut u8,
            out_len: usize,
        ) -> u64;
    }
}

/// The page in `out`, where it has room for it, and zeros after it; the page's length, 0 where it is refused.
pub fn page(from: Viewed, page: u8, out: &mut [u8]) -> u64 {
    let (header, rom, area) = (from.header, from.rom, from.area);
    // SAFETY: the slices are valid for their lengths, and `out` overlaps none of the others.
    unsafe {
        c::view_page(
            header.as_ptr(),
            header.len(),
            rom.as_ptr(),
            rom.len(),
            area.as_ptr(),
            area.len(),
            page,
            out.as_mut_ptr(),
            out.len(),
        )
    }
}
