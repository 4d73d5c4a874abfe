//! A board may crash the program, or never answer. On a fault, and on SIGTERM,
//! this prints the seed and the number of the current case.

use std::sync::atomic::{AtomicU64, Ordering::Relaxed};

static SEED: AtomicU64 = AtomicU64::new(0);
static CASE: AtomicU64 = AtomicU64::new(0);

extern "C" {
    fn signal(number: i32, handler: extern "C" fn(i32)) -> usize;
    fn write(file: i32, bytes: *const u8, length: usize) -> isize;
    fn _exit(status: i32) -> !;
}

/// SIGTERM, SIGILL, SIGABRT, SIGBUS, SIGFPE, SIGSEGV.
const SIGNALS: [i32; 6] = [15, 4, 6, 7, 8, 11];

pub fn watch(seed: u64) {
    SEED.store(seed, Relaxed);
    for number in SIGNALS {
        unsafe { signal(number, on_signal) };
    }
}

pub fn now_at(case: u64) {
    CASE.store(case, Relaxed);
}

/// A signal handler must not allocate.
extern "C" fn on_signal(_: i32) {
    print(b"crash, again: compare --seed ");
    print_number(SEED.load(Relaxed));
    print(b" --case ");
    print_number(CASE.load(Relaxed));
    print(b"\n");
    unsafe { _exit(1) }
}

fn print(text: &[u8]) {
    unsafe { write(1, text.as_ptr(), text.len()) };
}

fn print_number(number: u64) {
    if number >= 10 {
        print_number(number / 10);
    }
    print(&[b'0' + (number % 10) as u8]);
}
