//! Standard input and output that were closed before the program began.
//!
//! The run-time opens the null device in place of a closed stream before `main`, so that a file opened later does not
//! become standard output. Whether one was closed can be asked only before that.
#![allow(unsafe_code)]

use std::sync::atomic::{AtomicBool, Ordering};

static CLOSED: [AtomicBool; 2] = [AtomicBool::new(false), AtomicBool::new(false)];

/// The C library calls this before the run-time begins.
#[used]
#[link_section = ".init_array"]
static BEFORE_MAIN: extern "C" fn() = note_closed;

extern "C" fn note_closed() {
    const GET_FLAGS: i32 = 1;
    for (number, is_closed) in CLOSED.iter().enumerate() {
        // SAFETY: asking for the flags of a descriptor, open or not, changes nothing.
        let flags = unsafe { fcntl(number as i32, GET_FLAGS) };
        is_closed.store(flags < 0, Ordering::Relaxed);
    }
}

/// Whether standard input (0) or output (1) was closed.
pub fn is_closed(number: usize) -> bool {
    CLOSED[number].load(Ordering::Relaxed)
}

extern "C" {
    fn fcntl(descriptor: i32, command: i32, ...) -> i32;
}
