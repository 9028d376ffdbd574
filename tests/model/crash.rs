//! If the archive crashes, say in which case: a crash is a difference too.

use std::sync::atomic::{AtomicPtr, AtomicU64, AtomicUsize, Ordering};

static PART: AtomicPtr<u8> = AtomicPtr::new(std::ptr::null_mut());
static PART_LENGTH: AtomicUsize = AtomicUsize::new(0);
static SEED: AtomicU64 = AtomicU64::new(0);

unsafe extern "C" {
    fn signal(number: i32, handler: extern "C" fn(i32)) -> usize;
    fn _exit(code: i32) -> !;
}

/// The case that is about to be tried. The name lives as long as the program.
pub fn now(part: &'static str, seed: u64) {
    PART.store(part.as_ptr().cast_mut(), Ordering::Relaxed);
    PART_LENGTH.store(part.len(), Ordering::Relaxed);
    SEED.store(seed, Ordering::Relaxed);
}

extern "C" fn report(number: i32) {
    let (part, length) = (PART.load(Ordering::Relaxed), PART_LENGTH.load(Ordering::Relaxed));
    // SAFETY: `now` stored the two halves of one &'static str; the program has one thread.
    let part = if part.is_null() { "start" } else { unsafe { std::str::from_utf8_unchecked(std::slice::from_raw_parts(part, length)) } };
    let seed = SEED.load(Ordering::Relaxed);
    eprintln!("FAILED: signal {number} in {part}, seed {seed}\n  again: tests/model/run {part} {seed}");
    unsafe { _exit(1) }
}

/// SIGILL, SIGTRAP, SIGABRT, SIGBUS, SIGFPE, SIGSEGV.
pub fn install() {
    for number in [4, 5, 6, 7, 8, 11] {
        unsafe { signal(number, report) };
    }
}
