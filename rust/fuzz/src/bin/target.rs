//! libFuzzer's entry: a difference panics, which ends the process at this boundary, and libFuzzer keeps the input.
#![no_main]

use fuzz::played::Played;
use std::os::raw::c_int;
use std::{panic, process, slice};

/// # Safety
/// libFuzzer lends `size` bytes at `data` through the call.
#[no_mangle]
pub unsafe extern "C" fn LLVMFuzzerTestOneInput(data: *const u8, size: usize) -> c_int {
    // libFuzzer may pass no address with a size of 0.
    let input = if size == 0 { &[] } else { slice::from_raw_parts(data, size) };
    if panic::catch_unwind(|| Played::default().play(input, |_| ())).is_err() {
        process::abort();
    }
    0
}
