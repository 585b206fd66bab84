//! Both sides under libFuzzer: each input is a case, and a mismatch or a panic ends the run.
//!
//! usage: fuzz seeds FOLDER      writes the first inputs
//!        fuzz ...               what libFuzzer takes: options, folders, or inputs to ask again
#![no_main]

mod mutate;
mod seeds;

use std::ffi::{c_char, c_int};
use std::process::{abort, exit};

use compare::case::Case;
use compare::{check, shrink};

/// # Safety
/// libFuzzer calls it, with the bytes of an input and their count.
#[unsafe(no_mangle)]
pub unsafe extern "C" fn LLVMFuzzerTestOneInput(bytes: *const u8, count: usize) -> c_int {
    let input = if count == 0 {
        &[]
    } else {
        // SAFETY: the pointer and the count are those of libFuzzer's input.
        unsafe { std::slice::from_raw_parts(bytes, count) }
    };
    ask(&Case::from_bytes(input));
    0
}

/// Called before libFuzzer reads its options, so that one program does for both.
#[unsafe(no_mangle)]
pub extern "C" fn LLVMFuzzerInitialize(_: *mut c_int, _: *mut *mut *mut c_char) -> c_int {
    let words: Vec<String> = std::env::args().skip(1).collect();
    if let [command, folder] = &words[..]
        && command == "seeds"
    {
        exit(seeds::write(folder.as_ref()));
    }
    0
}

fn ask(case: &Case) {
    let answers = check(case);
    if !answers.differs() {
        return;
    }
    eprint!("\nMISMATCH\n{case}{answers}");
    let small = shrink::shrink(case.clone());
    eprint!("smallest input found:\n{small}{}", check(&small));
    abort();
}
