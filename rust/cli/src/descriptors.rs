//! Standard input and output as they were given. Rust's own start opens
//! /dev/null in place of a closed one, and its handles take a wrong one for an
//! empty input or a written output; here both are errors, since a failed read
//! is no text and a lost answer is none.

use std::ffi::c_int;
use std::fs::File;
use std::io;
use std::os::fd::AsFd;
use std::sync::atomic::{AtomicBool, Ordering};

const INPUT: usize = 0;
const OUTPUT: usize = 1;

static CLOSED: [AtomicBool; 2] = [AtomicBool::new(false), AtomicBool::new(false)];

extern "C" {
    fn fcntl(descriptor: c_int, command: c_int, ...) -> c_int;
}

/// Linux runs what this section lists before Rust's own start.
#[used]
#[link_section = ".init_array"]
static LOOK_FIRST: extern "C" fn() = look;

extern "C" fn look() {
    const GET_FLAGS: c_int = 1;
    for (descriptor, closed) in (0..).zip(&CLOSED) {
        // SAFETY: with this command fcntl takes any number and changes nothing.
        let flags = unsafe { fcntl(descriptor, GET_FLAGS) };
        closed.store(flags == -1, Ordering::Relaxed);
    }
}

/// Standard input, if it is open.
pub fn input() -> io::Result<File> {
    open(INPUT, io::stdin())
}

/// Standard output, if it is open.
pub fn output() -> io::Result<File> {
    open(OUTPUT, io::stdout())
}

fn open(descriptor: usize, handle: impl AsFd) -> io::Result<File> {
    const BAD_DESCRIPTOR: i32 = 9;
    if CLOSED[descriptor].load(Ordering::Relaxed) {
        return Err(io::Error::from_raw_os_error(BAD_DESCRIPTOR));
    }
    handle.as_fd().try_clone_to_owned().map(File::from)
}
