//! Ctrl-C as a wish to come to an end, not as the end.

use std::sync::atomic::{AtomicBool, Ordering};

const INTERRUPT: i32 = 2;
const IGNORED: usize = 1;

static CAME: AtomicBool = AtomicBool::new(false);

extern "C" {
    fn signal(number: i32, handler: usize) -> usize;
}

extern "C" fn note(_: i32) {
    CAME.store(true, Ordering::Relaxed);
}

pub fn listen() {
    let handler: extern "C" fn(i32) = note;
    // The handler does nothing but write one number that is made for it.
    unsafe { signal(INTERRUPT, handler as usize) };
}

/// For a process whose parent says when to end: Ctrl-C meets both.
pub fn ignore() {
    unsafe { signal(INTERRUPT, IGNORED) };
}

pub fn came() -> bool {
    CAME.load(Ordering::Relaxed)
}
