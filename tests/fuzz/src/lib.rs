//! The fuzz target: an input describes calls of the library, each compared with the reference.
#![deny(unsafe_code)]

pub mod files;
pub mod input;
mod log;
mod memory;
mod reached;
pub mod target;

use std::cell::RefCell;
use target::Target;

thread_local! {
    static TARGET: RefCell<Target> = RefCell::new(Target::default());
}

/// libFuzzer's entry. A difference is a panic.
///
/// # Safety
/// `size` bytes can be read at `data`.
#[no_mangle]
#[allow(unsafe_code, non_snake_case)]
pub unsafe extern "C" fn LLVMFuzzerTestOneInput(data: *const u8, size: usize) -> i32 {
    let input = match size {
        0 => &[],
        // SAFETY: libFuzzer lends this many bytes for the call.
        _ => unsafe { std::slice::from_raw_parts(data, size) },
    };
    let outcome = TARGET.with_borrow_mut(|target| target.run(input));
    if let Err(difference) = outcome {
        panic!("{difference}");
    }
    0
}
