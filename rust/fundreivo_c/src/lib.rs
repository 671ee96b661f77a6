//! The auction as C calls it: see `fundreivo.h`.
use fundreivo::auction::perform;
use std::ffi::{CStr, c_char};
use std::panic::catch_unwind;
use std::slice::from_raw_parts;

const WORDS: i32 = 1;
const PANIC: i32 = 6;

// What is written, or the text and the status of a fault.
fn answer(words: &[&CStr], input: &[u8]) -> (i32, Vec<u8>) {
    let Ok(words) = words.iter().map(|word| word.to_str()).collect::<Result<Vec<_>, _>>() else {
        return (WORDS, b"error: a word is no text\n".to_vec());
    };
    let mut output = Vec::new();
    match perform(&words, input, &mut output) {
        Ok(()) => (0, output),
        Err(fault) => (fault.status.into(), fault.text.into_bytes()),
    }
}

/// Does what `rubis_auction WORDS` does with an input, and gives its status.
///
/// # Safety
/// There are `count` texts at `words`, each with a zero at its end, `size` bytes at `input`, and room at `output` and
/// `output_size`. What has no items may be null.
#[unsafe(no_mangle)]
pub unsafe extern "C" fn fundreivo_run(
    words: *const *const c_char,
    count: usize,
    input: *const u8,
    size: usize,
    output: *mut *mut c_char,
    output_size: *mut usize,
) -> i32 {
    // SAFETY: the caller keeps what is asked.
    let (words, input): (Vec<&CStr>, &[u8]) = unsafe {
        let words = if count == 0 { &[] } else { from_raw_parts(words, count) };
        let input = if size == 0 { &[] } else { from_raw_parts(input, size) };
        (words.iter().map(|word| CStr::from_ptr(*word)).collect(), input)
    };
    let (status, mut text) = catch_unwind(|| answer(&words, input)).unwrap_or((PANIC, b"panic\n".to_vec()));
    let size = text.len();
    text.push(0);
    // SAFETY: the same.
    unsafe {
        *output_size = size;
        *output = Box::into_raw(text.into_boxed_slice()) as *mut c_char;
    }
    status
}

/// Gives an output back.
///
/// # Safety
/// `fundreivo_run` gave it with this size, and it is given back once; or it is null.
#[unsafe(no_mangle)]
pub unsafe extern "C" fn fundreivo_free(output: *mut c_char, output_size: usize) {
    if !output.is_null() {
        // SAFETY: it was made by `fundreivo_run`, with a zero behind it.
        drop(unsafe { Box::from_raw(std::ptr::slice_from_raw_parts_mut(output as *mut u8, output_size + 1)) });
    }
}
