//! Changes that know what a case is. libFuzzer's own see plain bytes, and most of them spoil a
//! payload's kind, type or length before they come to its fields.

use std::ffi::c_uint;

use compare::case::Case;
use compare::generate;
use compare::rng::Rng;

unsafe extern "C" {
    fn LLVMFuzzerMutate(bytes: *mut u8, count: usize, room: usize) -> usize;
}

/// # Safety
/// libFuzzer calls it, with an input of `count` bytes to change within `room`.
#[unsafe(no_mangle)]
pub unsafe extern "C" fn LLVMFuzzerCustomMutator(
    bytes: *mut u8,
    count: usize,
    room: usize,
    seed: c_uint,
) -> usize {
    // SAFETY: the pointer and the counts are those of libFuzzer's buffer.
    let input = unsafe { std::slice::from_raw_parts(bytes, count) };
    let mut rng = Rng::new(seed.into());
    let case = Case::from_bytes(input);
    let made = match rng.below(8) {
        0 => Some(generate::case(&mut rng, case.kind).to_bytes()),
        1 => Some(within(case, room).to_bytes()),
        _ => None,
    };
    match made.filter(|made| made.len() <= room) {
        Some(made) => {
            // SAFETY: they fit, and a vector is not libFuzzer's buffer.
            unsafe { bytes.copy_from_nonoverlapping(made.as_ptr(), made.len()) };
            made.len()
        }
        // SAFETY: as above.
        None => unsafe { LLVMFuzzerMutate(bytes, count, room) },
    }
}

/// The case with other bytes alone.
fn within(mut case: Case, room: usize) -> Case {
    let count = case.bytes.len();
    case.bytes.resize(room, 0);
    // SAFETY: the pointer and the counts are those of a vector.
    let count = unsafe { LLVMFuzzerMutate(case.bytes.as_mut_ptr(), count, room) };
    case.bytes.truncate(count);
    case
}
