//! Put before the C library of a program (LD_PRELOAD): of every three reads of standard input, and of every three
//! writes to standard output, the first is interrupted, the second would block, and the third moves at most 100 bytes.
//! At its end the program says on standard error how many calls were turned back, so that a check knows that they were.

use std::ffi::{c_int, c_void};
use std::sync::atomic::{AtomicUsize, Ordering};

/// EINTR and EAGAIN of Linux.
const INTERRUPTED: c_int = 4;
const WOULD_BLOCK: c_int = 11;

const MOST_BYTES: usize = 100;

/// Calls so far, by stream: reads of 0, writes to 1.
static CALLS: [AtomicUsize; 2] = [AtomicUsize::new(0), AtomicUsize::new(0)];

#[repr(C)]
struct Piece {
    bytes: *const c_void,
    length: usize,
}

unsafe extern "C" {
    // The same as `read` and `write`, which are taken here.
    fn readv(stream: c_int, pieces: *const Piece, count: c_int) -> isize;
    fn writev(stream: c_int, pieces: *const Piece, count: c_int) -> isize;
    fn __errno_location() -> *mut c_int;
    fn atexit(call: extern "C" fn()) -> c_int;
}

/// Whether this call on a stream is turned back; the first one of all arranges for the last words.
fn turned_back(stream: usize) -> bool {
    let call = CALLS[stream].fetch_add(1, Ordering::Relaxed);
    if stream == 0 && call == 0 {
        unsafe { atexit(last_words) };
    }
    let error = match call % 3 {
        0 => INTERRUPTED,
        1 => WOULD_BLOCK,
        _ => return false,
    };
    unsafe { *__errno_location() = error };
    true
}

extern "C" fn last_words() {
    let [reads, writes] = [0, 1].map(|stream| {
        let calls = CALLS[stream].load(Ordering::Relaxed);
        calls - calls / 3
    });
    let words = format!("turned back: {reads} reads, {writes} writes\n");
    let piece = Piece {
        bytes: words.as_ptr().cast(),
        length: words.len(),
    };
    unsafe { writev(2, &piece, 1) };
}

/// # Safety
/// As for the C library's `read`.
#[unsafe(no_mangle)]
pub unsafe extern "C" fn read(stream: c_int, bytes: *mut c_void, length: usize) -> isize {
    let length = match stream {
        0 if turned_back(0) => return -1,
        0 => length.min(MOST_BYTES),
        _ => length,
    };
    unsafe { readv(stream, &Piece { bytes, length }, 1) }
}

/// # Safety
/// As for the C library's `write`.
#[unsafe(no_mangle)]
pub unsafe extern "C" fn write(stream: c_int, bytes: *const c_void, length: usize) -> isize {
    let length = match stream {
        1 if turned_back(1) => return -1,
        1 => length.min(MOST_BYTES),
        _ => length,
    };
    unsafe { writev(stream, &Piece { bytes, length }, 1) }
}
