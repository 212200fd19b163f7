//! The C functions of libsnapshot.a and safe calls of them. Each program calls some of them.
#![allow(unsafe_code, dead_code)]

mod c {
    #[link(name = "snapshot", kind = "static")]
    extern "C" {
        pub fn snap_version() -> u32;
        pub fn snap_z80_read(
            file: *const u8,
            file_len: usize,
            area: *mut u8,
            area_len: usize,
            header: *mut u8,
            header_len: usize,
            offset: *mut u64,
        ) -> u32;
        pub fn snap_z80_write(
            header: *const u8,
            header_len: usize,
            area: *const u8,
            area_len: usize,
            out: *mut u8,
            out_len: usize,
            length: *mut u64,
        ) -> u32;
        pub fn snap_z80_explain(
            file: *const u8,
            file_len: usize,
            offset: *mut u64,
            block: *mut u64,
            found: *mut u64,
            due: *mut u64,
        ) -> u32;
        pub fn snap_scs_read(
            file: *const u8,
            file_len: usize,
            area: *mut u8,
            area_len: usize,
            header: *mut u8,
            header_len: usize,
            offset: *mut u64,
        ) -> u32;
        pub fn snap_scs_write(
            header: *const u8,
            header_len: usize,
            area: *const u8,
            area_len: usize,
            out: *mut u8,
            out_len: usize,
            length: *mut u64,
        ) -> u32;
        pub fn snap_view(
            header: *const u8,
            header_len: usize,
            rom: *const u8,
            rom_len: usize,
            area: *const u8,
            area_len: usize,
            page: u8,
            in_rom: *mut u8,
            start: *mut u64,
            length: *mut u64,
        ) -> u32;
        pub fn snap_model(
            header: *const u8,
            header_len: usize,
            model: *mut u8,
            attachment: *mut u8,
        ) -> u32;
        pub fn snap_pair(header: *const u8, header_len: usize, pair: u8, value: *mut u16) -> u32;
        pub fn snap_place(
            header: *const u8,
            header_len: usize,
            address: u16,
            in_rom: *mut u8,
            page: *mut u8,
            offset: *mut u16,
        ) -> u32;
        pub fn snap_log_start(
            log: *mut u8,
            log_len: usize,
            standing: *mut u64,
            total: *mut u64,
        ) -> u32;
        pub fn snap_correct_byte(
            header: *mut u8,
            header_len: usize,
            area: *mut u8,
            area_len: usize,
            log: *mut u8,
            log_len: usize,
            standing: *mut u64,
            total: *mut u64,
            address: u16,
            value: u8,
        ) -> u32;
        pub fn snap_correct_pair(
            header: *mut u8,
            header_len: usize,
            area: *mut u8,
            area_len: usize,
            log: *mut u8,
            log_len: usize,
            standing: *mut u64,
            total: *mut u64,
            pair: u8,
            value: u16,
        ) -> u32;
        pub fn snap_correct_out(
            header: *mut u8,
            header_len: usize,
            area: *mut u8,
            area_len: usize,
            log: *mut u8,
            log_len: usize,
            standing: *mut u64,
            total: *mut u64,
            value: u8,
        ) -> u32;
        pub fn snap_undo(
            header: *mut u8,
            header_len: usize,
            area: *mut u8,
            area_len: usize,
            log: *mut u8,
            log_len: usize,
            standing: *mut u64,
            total: *mut u64,
        ) -> u32;
        pub fn snap_redo(
            header: *mut u8,
            header_len: usize,
            area: *mut u8,
            area_len: usize,
            log: *mut u8,
            log_len: usize,
            standing: *mut u64,
            total: *mut u64,
        ) -> u32;
    }
}

/// The version of the library.
pub fn version() -> u32 {
    // SAFETY: nothing is lent.
    unsafe { c::snap_version() }
}

/// Reads a `.z80` file into the area and the header; 0 or the number that refuses it, and the offset.
pub fn read(file: &[u8], area: &mut [u8], header: &mut [u8], offset: &mut u64) -> u32 {
    let (from, bytes) = (file.as_ptr(), file.len());
    let (to, room) = (area.as_mut_ptr(), area.len());
    let (machine, length) = (header.as_mut_ptr(), header.len());
    // SAFETY: the slices and `offset` are valid and do not overlap.
    unsafe { c::snap_z80_read(from, bytes, to, room, machine, length, offset) }
}

/// Writes the v3 file of a header and an area; 0 and its length, or the number that refuses it.
pub fn write(header: &[u8], area: &[u8], out: &mut [u8], length: &mut u64) -> u32 {
    let (machine, from) = (header.as_ptr(), area.as_ptr());
    let (to, room) = (out.as_mut_ptr(), out.len());
    // SAFETY: the slices and `length` are valid and do not overlap.
    unsafe { c::snap_z80_write(machine, header.len(), from, area.len(), to, room, length) }
}

/// Why reading refuses a `.z80` file; 0 and four zeros for a good one.
pub fn explain(
    file: &[u8],
    offset: &mut u64,
    block: &mut u64,
    found: &mut u64,
    due: &mut u64,
) -> u32 {
    // SAFETY: the slice and the four numbers are valid and do not overlap.
    unsafe { c::snap_z80_explain(file.as_ptr(), file.len(), offset, block, found, due) }
}

/// Reads an SCS file into the area and the header; 0 or the number that refuses it, and the offset.
pub fn scs_read(file: &[u8], area: &mut [u8], header: &mut [u8], offset: &mut u64) -> u32 {
    let (from, bytes) = (file.as_ptr(), file.len());
    let (to, room) = (area.as_mut_ptr(), area.len());
    let (machine, length) = (header.as_mut_ptr(), header.len());
    // SAFETY: the slices and `offset` are valid and do not overlap.
    unsafe { c::snap_scs_read(from, bytes, to, room, machine, length, offset) }
}

/// Writes the SCS file of a header and an area; 0 and its length, or the number that refuses it.
pub fn scs_write(header: &[u8], area: &[u8], out: &mut [u8], length: &mut u64) -> u32 {
    let (machine, from) = (header.as_ptr(), area.as_ptr());
    let (to, room) = (out.as_mut_ptr(), out.len());
    // SAFETY: the slices and `length` are valid and do not overlap.
    unsafe { c::snap_scs_write(machine, header.len(), from, area.len(), to, room, length) }
}

/// What a view looks at.
#[derive(Clone, Copy)]
pub struct Viewed<'a> {
    pub header: &'a [u8],
    pub rom: &'a [u8],
    pub area: &'a [u8],
}

/// Where a page lies, `in_rom` 1 for the ROM and 0 for the area; 0 or the number that refuses it.
pub fn view(from: Viewed, page: u8, in_rom: &mut u8, start: &mut u64, length: &mut u64) -> u32 {
    let (header, rom, area) = (from.header, from.rom, from.area);
    // SAFETY: the slices and the three numbers are valid and do not overlap.
    unsafe {
        c::snap_view(
            header.as_ptr(),
            header.len(),
            rom.as_ptr(),
            rom.len(),
            area.as_ptr(),
            area.len(),
            page,
            in_rom,
            start,
            length,
        )
    }
}

/// The model and the attachment of a machine; 0 or the number that refuses it.
pub fn model(header: &[u8], model: &mut u8, attachment: &mut u8) -> u32 {
    // SAFETY: the slice and both numbers are valid and do not overlap.
    unsafe { c::snap_model(header.as_ptr(), header.len(), model, attachment) }
}

/// The value of a register pair; 0 or the number that refuses it.
pub fn pair(header: &[u8], pair: u8, value: &mut u16) -> u32 {
    // SAFETY: the slice and the value are valid and do not overlap.
    unsafe { c::snap_pair(header.as_ptr(), header.len(), pair, value) }
}

/// Where an address leads, `in_rom` 1 for ROM; 0 or the number that refuses it.
pub fn place(header: &[u8], address: u16, in_rom: &mut u8, page: &mut u8, offset: &mut u16) -> u32 {
    let (machine, length) = (header.as_ptr(), header.len());
    // SAFETY: the slice and the three numbers are valid and do not overlap.
    unsafe { c::snap_place(machine, length, address, in_rom, page, offset) }
}

/// Starts a log.
pub fn log_start(log: &mut [u8], standing: &mut u64, total: &mut u64) -> u32 {
    // SAFETY: the slice and both numbers are valid and do not overlap.
    unsafe { c::snap_log_start(log.as_mut_ptr(), log.len(), standing, total) }
}

/// What is lent to every call of the journal.
pub struct LogBuffers<'a> {
    pub header: &'a mut [u8],
    pub area: &'a mut [u8],
    pub log: &'a mut [u8],
    pub standing: &'a mut u64,
    pub total: &'a mut u64,
}

/// The C function with what is lent, then what is asked.
macro_rules! call {
    ($name:ident, $lent:ident $(, $asked:ident)*) => {{
        let (header, area, log) = ($lent.header, $lent.area, $lent.log);
        let (machine, memory, steps) = (header.as_mut_ptr(), area.as_mut_ptr(), log.as_mut_ptr());
        let (header, area, log) = (header.len(), area.len(), log.len());
        let (standing, total) = ($lent.standing, $lent.total);
        // SAFETY: the slices and both numbers are valid and do not overlap.
        unsafe { c::$name(machine, header, memory, area, steps, log, standing, total $(, $asked)*) }
    }};
}

/// Gives the byte at an address a value.
pub fn correct_byte(lent: LogBuffers, address: u16, value: u8) -> u32 {
    call!(snap_correct_byte, lent, address, value)
}

/// Gives a register pair a value.
pub fn correct_pair(lent: LogBuffers, pair: u8, value: u16) -> u32 {
    call!(snap_correct_pair, lent, pair, value)
}

/// Makes an OUT to 7FFD.
pub fn correct_out(lent: LogBuffers, value: u8) -> u32 {
    call!(snap_correct_out, lent, value)
}

/// Takes the last applied correction back.
pub fn undo(lent: LogBuffers) -> u32 {
    call!(snap_undo, lent)
}

/// Makes the next undone correction again.
pub fn redo(lent: LogBuffers) -> u32 {
    call!(snap_redo, lent)
}
