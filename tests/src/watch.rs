//! An eye on the library at work: a touched fence, or a call that does not end, stops the program
//! with the number of the case. For Linux.

use std::ffi::{c_int, c_uint, c_void};
use std::sync::atomic::{AtomicU64, Ordering};

const SEGMENTATION_FAULT: c_int = 11;
const ALARM: c_int = 14;
const STANDARD_ERROR: c_int = 2;
/// The time that one case may take; most take less than a thousandth of a second.
const SECONDS_A_CASE: c_uint = 60;

extern "C" {
    fn signal(number: c_int, handler: extern "C" fn(c_int)) -> *mut c_void;
    fn alarm(seconds: c_uint) -> c_uint;
    fn write(file: c_int, bytes: *const c_void, length: usize) -> isize;
    fn _exit(status: c_int) -> !;
}

static CASE: AtomicU64 = AtomicU64::new(0);

/// Starts to watch.
pub fn start() {
    // SAFETY: the handler only writes a message and ends the program.
    unsafe {
        signal(SEGMENTATION_FAULT, stop);
        signal(ALARM, stop);
    }
}

/// Says which case is at work, and gives it its time.
pub fn at_case(number: u64) {
    CASE.store(number, Ordering::Relaxed);
    // SAFETY: sets a timer of the system and touches no memory.
    unsafe { alarm(SECONDS_A_CASE) };
}

extern "C" fn stop(reason: c_int) {
    if reason == ALARM {
        say(b"a call did not end in case ");
    } else {
        say(b"memory outside of the lent bytes was touched in case ");
    }
    let mut digits = [b'0'; 20];
    let mut rest = CASE.load(Ordering::Relaxed);
    for digit in digits.iter_mut().rev() {
        *digit = b'0' + (rest % 10) as u8;
        rest /= 10;
    }
    let start = digits.iter().position(|&digit| digit != b'0');
    say(&digits[start.unwrap_or(19)..]);
    say(b"\n");
    // SAFETY: ends the program at once, which a signal handler may do.
    unsafe { _exit(1) }
}

fn say(text: &[u8]) {
    // SAFETY: the text is readable for its length, and `write` may be called in a handler.
    unsafe { write(STANDARD_ERROR, text.as_ptr().cast(), text.len()) };
}
