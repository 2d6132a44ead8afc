//! A call that touches memory outside of what it was lent, traps or never returns ends the program
//! by a signal. This tells which case it was, in the form of a failed comparison.

use std::ffi::{c_int, c_uint, c_void};
use std::io::{Cursor, Write};
use std::sync::atomic::{AtomicU64, Ordering};

const SIGILL: c_int = 4;
const SIGABRT: c_int = 6;
const SIGBUS: c_int = 7;
const SIGFPE: c_int = 8;
const SIGSEGV: c_int = 11;
const SIGALRM: c_int = 14;
const STDOUT: c_int = 1;

/// A batch of cases takes a fraction of a second; one that takes so long will not end.
const SECONDS_A_BATCH: c_uint = 120;
const BATCH: u64 = 1_024;

extern "C" {
    fn signal(number: c_int, handler: extern "C" fn(c_int)) -> *mut c_void;
    fn alarm(seconds: c_uint) -> c_uint;
    fn write(file: c_int, bytes: *const c_void, count: usize) -> isize;
    fn _exit(status: c_int) -> !;
}

static CASE: AtomicU64 = AtomicU64::new(0);
static PASSED: AtomicU64 = AtomicU64::new(0);

/// From now on signals end the program as a failed case.
pub fn watch() {
    for number in [SIGILL, SIGABRT, SIGBUS, SIGFPE, SIGSEGV, SIGALRM] {
        // SAFETY: the handler only formats numbers into its own buffer, writes and exits.
        unsafe { signal(number, on_signal) };
    }
}

/// Says which case comes next, and how many have passed.
pub fn starting(case: u64, passed: u64) {
    CASE.store(case, Ordering::Relaxed);
    PASSED.store(passed, Ordering::Relaxed);
    if passed.is_multiple_of(BATCH) {
        // SAFETY: sets a timer of the process.
        unsafe { alarm(SECONDS_A_BATCH) };
    }
}

extern "C" fn on_signal(number: c_int) {
    let case = CASE.load(Ordering::Relaxed);
    let passed = PASSED.load(Ordering::Relaxed);
    let mut text = Cursor::new([0; 160]);
    // The numbers always fit, so there is no failure to tell of.
    let _ = writeln!(text, "case {case}: the call ended by signal {number}");
    let _ = writeln!(text, "{passed} passed, 1 failed");
    // SAFETY: the bytes are this function's own, and a signal handler may make both calls.
    unsafe {
        write(
            STDOUT,
            text.get_ref().as_ptr().cast(),
            text.position() as usize,
        );
        _exit(1)
    }
}
