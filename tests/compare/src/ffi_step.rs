//! The C functions of libstep_exports.a and safe calls of them. Each program calls some of them.
#![allow(unsafe_code, dead_code)]

use compare::lent::LentPart;
use reference::packing::PackStep;

mod c {
    #[link(name = "step_exports", kind = "static")]
    extern "C" {
        pub fn packing_step(
            src: *const u8,
            src_len: usize,
            at: u64,
            code: *mut u8,
            code_len: usize,
            size: *mut u64,
            taken: *mut u64,
        ) -> u32;
    }
}

/// The bytes of a code, the most that a step writes: it is lent just so many.
pub const CODE_BYTES: usize = 4;

/// The case of the step at a place, 1 to 4, with what it writes in `code` and zeros after it, the size of that, and how
/// many bytes it takes; 0 and zeros where there is no byte or `code` is not of CODE_BYTES.
pub fn step(src: &[u8], at: u64, code: &mut [u8], size: &mut u64, taken: &mut u64) -> u32 {
    let (to, room) = (code.as_mut_ptr(), code.len());
    // SAFETY: the slices and both numbers are valid and do not overlap.
    unsafe { c::packing_step(src.as_ptr(), src.len(), at, to, room, size, taken) }
}

/// One step after another, which must come to the end of the data exactly.
pub fn steps(src: &[u8]) -> Result<Vec<PackStep>, String> {
    let mut code = LentPart::new(CODE_BYTES, 1);
    let mut steps = Vec::new();
    let mut left = src;
    while !left.is_empty() {
        let at = src.len() - left.len();
        let [mut size, mut taken] = [u64::MAX; 2];
        let case = step(src, at as u64, code.part_mut(), &mut size, &mut taken);
        let written = code.part().get(..size as usize);
        let after = left.get(taken as usize..);
        let (1.., Some(written), Some(after)) = (taken, written, after) else {
            return Err(format!("at {at}: case {case}, {size} bytes for {taken}"));
        };
        steps.push(PackStep {
            case,
            written: written.to_vec(),
            taken: taken as usize,
        });
        left = after;
    }
    Ok(steps)
}
