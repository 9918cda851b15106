//! The fuzzer's way in: an input is a case, and whatever the library says otherwise than the independent checker and
//! lister ends the process, so that the fuzzer keeps the input.

use independent::case;

/// # Safety
/// The fuzzer hands over `size` bytes at `data`.
#[no_mangle]
pub unsafe extern "C" fn LLVMFuzzerTestOneInput(data: *const u8, size: usize) -> i32 {
    if size > 0 {
        case::ask(std::slice::from_raw_parts(data, size));
    }
    0
}
