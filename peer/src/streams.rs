//! Whether a standard stream was closed when the program began. Rust's library opens such a one to
//! nowhere before `main`, so that what is written would be lost without an error.

use std::io::{Error, Result};
use std::sync::atomic::{AtomicBool, Ordering};

static CLOSED: [AtomicBool; 2] = [AtomicBool::new(false), AtomicBool::new(false)];

const GET_FLAGS: i32 = 1;
const BAD_DESCRIPTOR: i32 = 9;

extern "C" {
    fn fcntl(descriptor: i32, command: i32, ...) -> i32;
}

/// The C library calls this before it calls what calls `main`.
#[used]
#[link_section = ".init_array"]
static LOOK: extern "C" fn() = look;

extern "C" fn look() {
    for (descriptor, closed) in (0..).zip(&CLOSED) {
        // only asks for the descriptor's flags, which changes nothing
        closed.store(unsafe { fcntl(descriptor, GET_FLAGS) } == -1, Ordering::Relaxed);
    }
}

/// An error if standard input, 0, or standard output, 1, was closed.
pub fn was_open(descriptor: usize) -> Result<()> {
    if CLOSED[descriptor].load(Ordering::Relaxed) {
        return Err(Error::from_raw_os_error(BAD_DESCRIPTOR));
    }
    Ok(())
}
