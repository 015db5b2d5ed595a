//! Two things of the system that `std` doesn't have: what Ctrl-C does, and how wide the terminal is. For Linux on x86-64, as the
//! library is.
#![expect(unsafe_code, reason = "two calls of the C library, which is linked in any case")]

use std::ffi::{c_int, c_ulong, c_ushort};
use std::sync::atomic::{AtomicBool, Ordering};

/// SIGINT.
const INTERRUPT: c_int = 2;
/// SIG_DFL and SIG_IGN.
const DEFAULT: usize = 0;
const IGNORED: usize = 1;
/// TIOCGWINSZ.
const WINDOW_SIZE: c_ulong = 0x5413;
const STANDARD_ERROR: c_int = 2;

unsafe extern "C" {
    fn signal(number: c_int, handler: usize) -> usize;
    fn ioctl(file: c_int, request: c_ulong, ...) -> c_int;
}

static INTERRUPTED: AtomicBool = AtomicBool::new(false);

extern "C" fn interrupted(number: c_int) {
    INTERRUPTED.store(true, Ordering::Relaxed);
    // SAFETY: a handler may call `signal`, and the default one needs nothing.
    unsafe { signal(number, DEFAULT) };
}

/// From now on the first Ctrl-C is only noted; the second ends the program, as the first did. Where it is ignored, as behind
/// `nohup`, it stays so.
pub fn note_interrupt() {
    let handler: extern "C" fn(c_int) = interrupted;
    // SAFETY: the handler writes an atomic and calls `signal`, which a handler may do.
    unsafe {
        if signal(INTERRUPT, handler as usize) == IGNORED {
            signal(INTERRUPT, IGNORED);
        }
    }
}

/// Whether Ctrl-C was noted.
#[must_use]
pub fn was_interrupted() -> bool {
    INTERRUPTED.load(Ordering::Relaxed)
}

/// Linux's `struct winsize`.
#[repr(C)]
#[derive(Default)]
struct WindowSize {
    rows: c_ushort,
    columns: c_ushort,
    width: c_ushort,
    height: c_ushort,
}

/// How many columns the terminal has that standard error is; nothing where it is none.
#[must_use]
pub fn columns() -> Option<usize> {
    let mut size = WindowSize::default();
    // SAFETY: the call writes one `WindowSize`, which lives until it returns.
    let failed = unsafe { ioctl(STANDARD_ERROR, WINDOW_SIZE, &raw mut size) } != 0;
    (!failed && size.columns > 0).then_some(size.columns.into())
}
