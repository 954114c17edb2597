//! What a program is started with, as it was before Rust's own start.
//!
//! That start opens `/dev/null` in place of a standard output that is closed, and writing to one
//! that is open for reading alone counts as written. So the loader, which runs the functions in
//! `.init_array` before it, has the one here look and note what is there. Other systems have
//! no such section; there standard output counts as one that takes what is written.

use std::ffi::c_int;
use std::sync::atomic::{AtomicBool, Ordering::Relaxed};

static TAKES: AtomicBool = AtomicBool::new(true);

/// Whether the program was started with a standard output that can be written.
pub fn output_takes() -> bool {
    TAKES.load(Relaxed)
}

#[used]
#[cfg_attr(target_os = "linux", link_section = ".init_array")]
static FIRST: extern "C" fn() = look;

extern "C" fn look() {
    const OUTPUT: c_int = 1;
    const F_GETFL: c_int = 3;
    const O_ACCMODE: c_int = 3;
    const O_RDONLY: c_int = 0;
    // SAFETY: the call takes two numbers, answers one, and touches no memory.
    let flags = unsafe { fcntl(OUTPUT, F_GETFL) };
    TAKES.store(flags >= 0 && flags & O_ACCMODE != O_RDONLY, Relaxed);
}

extern "C" {
    fn fcntl(file: c_int, command: c_int, ...) -> c_int;
}
