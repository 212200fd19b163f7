//! The C functions of libpacking_exports.a and safe calls of them. Each program calls some of them.
#![allow(unsafe_code, dead_code)]

mod c {
    #[link(name = "packing_exports", kind = "static")]
    extern "C" {
        pub fn packing_unpack(
            src: *const u8,
            src_len: usize,
            dst: *mut u8,
            dst_len: usize,
            place: *mut u64,
            found: *mut u64,
        ) -> u32;
        pub fn packing_would_unpack(
            src: *const u8,
            src_len: usize,
            due: u64,
            place: *mut u64,
            found: *mut u64,
        ) -> u32;
        pub fn packing_pack(
            src: *const u8,
            src_len: usize,
            dst: *mut u8,
            dst_len: usize,
            length: *mut u64,
        ) -> u32;
        pub fn packing_packed_len(src: *const u8, src_len: usize) -> u64;
    }
}

/// 0 good, 1 malformed and the place of the first bad code, 2 wrong length and the length found; otherwise both are 0.
pub fn unpack(src: &[u8], dst: &mut [u8], place: &mut u64, found: &mut u64) -> u32 {
    let (to, room) = (dst.as_mut_ptr(), dst.len());
    // SAFETY: the slices and both numbers are valid and do not overlap.
    unsafe { c::packing_unpack(src.as_ptr(), src.len(), to, room, place, found) }
}

/// What unpacking into a part of `due` bytes gives; 3 where that is not below 65,536.
pub fn would_unpack(src: &[u8], due: u64, place: &mut u64, found: &mut u64) -> u32 {
    // SAFETY: the slice and both numbers are valid and do not overlap.
    unsafe { c::packing_would_unpack(src.as_ptr(), src.len(), due, place, found) }
}

/// 0 and the packed length; 1 too short and a length of 0.
pub fn pack(src: &[u8], dst: &mut [u8], length: &mut u64) -> u32 {
    let (to, room) = (dst.as_mut_ptr(), dst.len());
    // SAFETY: the slices and `length` are valid and do not overlap.
    unsafe { c::packing_pack(src.as_ptr(), src.len(), to, room, length) }
}

/// The packed length alone.
pub fn packed_len(src: &[u8]) -> u64 {
    // SAFETY: the slice is valid for its length.
    unsafe { c::packing_packed_len(src.as_ptr(), src.len()) }
}
