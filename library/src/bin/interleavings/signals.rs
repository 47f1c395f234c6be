//! Signals that end the work early: what is left to do then is still done, and
//! then the program ends by the signal.

use std::sync::atomic::{AtomicI32, Ordering};

/// As Linux numbers them: Ctrl-C, the end, the terminal gone.
pub const INT: i32 = 2;
pub const TERM: i32 = 15;
#[allow(dead_code)]
pub const HUP: i32 = 1;

/// What `signal` takes and returns besides a handler.
const DEFAULT: usize = 0;
const IGNORED: usize = 1;

static CAUGHT: AtomicI32 = AtomicI32::new(0);

extern "C" {
    fn signal(number: i32, action: usize) -> usize;
    fn raise(number: i32) -> i32;
}

/// A second signal ends the program at once.
extern "C" fn note(number: i32) {
    CAUGHT.store(number, Ordering::Relaxed);
    set(number, DEFAULT);
}

fn set(number: i32, action: usize) -> usize {
    // `signal` may be called anywhere, in a handler too, and `note` is one
    unsafe { signal(number, action) }
}

/// From now on these are noted. One that is ignored, as in a script's
/// background, stays so.
pub fn watch(numbers: &[i32]) {
    for &number in numbers {
        if set(number, note as extern "C" fn(i32) as usize) == IGNORED {
            set(number, IGNORED);
        }
    }
}

pub fn came() -> bool {
    CAUGHT.load(Ordering::Relaxed) != 0
}

/// Ends the program by the signal that came.
pub fn follow() {
    let number = CAUGHT.load(Ordering::Relaxed);
    set(number, DEFAULT);
    // raising a signal asks for nothing
    unsafe { raise(number) };
}
