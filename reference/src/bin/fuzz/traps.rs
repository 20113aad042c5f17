//! Signals that end a program: the case at which one came is told, so that it can be repeated.
#![allow(unsafe_code)]

use std::cell::Cell;
use std::ffi::{c_int, c_void};
use std::ptr::null_mut;
use std::sync::atomic::{AtomicU64, Ordering};

/// How a signal is handled, as the C library has it on Linux.
#[repr(C)]
struct Action {
    handler: extern "C" fn(c_int, *const u8, *mut c_void),
    mask: [u64; 16],
    flags: c_int,
    restorer: usize,
}

extern "C" {
    fn sigaction(signal: c_int, action: *const Action, old: *mut Action) -> c_int;
    fn write(file: c_int, bytes: *const u8, length: usize) -> isize;
    fn alarm(seconds: u32) -> u32;
    fn _exit(status: c_int) -> !;
}

/// The signals, by their numbers on Linux: an illegal instruction, a trap, an error of the bus or of
/// arithmetic, an access to memory, and the end of the time.
const SIGNALS: [c_int; 6] = [4, 5, 7, 8, 11, 14];
const TIME_IS_OVER: c_int = 14;
/// The handler is told where the access was, and runs on a stack of its own.
const WITH_PLACE_ON_OTHER_STACK: c_int = 4 | 0x0800_0000;
/// Where the address stands in what the handler is told.
const ADDRESS: usize = 16;
/// No case is at work.
const NO_CASE: u64 = u64::MAX;

static SEED: AtomicU64 = AtomicU64::new(0);

thread_local! {
    static AT_WORK: Cell<(&'static str, u64)> = const { Cell::new(("", NO_CASE)) };
}

/// Says that an operation is called for a case.
pub fn enter(operation: &'static str, case: u64) {
    AT_WORK.set((operation, case));
}

/// Says that the call has ended.
pub fn leave() {
    AT_WORK.set(("", NO_CASE));
}

/// A call that takes longer than so many seconds from now on is told as a trap is.
pub fn allow_seconds(seconds: u32) {
    // SAFETY: the signal that comes is handled.
    unsafe { alarm(seconds) };
}

/// Handles the signals from now on.
pub fn handle(seed: u64) {
    SEED.store(seed, Ordering::Relaxed);
    let flags = WITH_PLACE_ON_OTHER_STACK;
    let action = Action { handler: tell, mask: [0; 16], flags, restorer: 0 };
    for signal in SIGNALS {
        // SAFETY: the action is as the C library has it, and its handler ends the program.
        let done = unsafe { sigaction(signal, &action, null_mut()) };
        assert_eq!(done, 0, "a signal can be handled");
    }
}

/// Writes bytes to the output; nothing is to be done where that fails.
fn put(bytes: &[u8]) {
    // SAFETY: pointer and length are those of a slice.
    unsafe { write(1, bytes.as_ptr(), bytes.len()) };
}

/// Writes a number without any memory but the stack.
fn put_number(mut number: u64, base: u64) {
    let (mut digits, mut place) = ([0; 20], 20);
    loop {
        place -= 1;
        digits[place] = b"0123456789ABCDEF"[(number % base) as usize];
        number /= base;
        if number == 0 {
            return put(&digits[place..]);
        }
    }
}

/// Tells the signal and the case, and ends the program.
extern "C" fn tell(signal: c_int, told: *const u8, _: *mut c_void) {
    let (operation, case) = AT_WORK.get();
    put(b"\nTRAP: signal ");
    put_number(signal as u64, 10);
    if signal != TIME_IS_OVER {
        put(b" at address ");
        // SAFETY: what is told about such a signal has the address at this place.
        put_number(unsafe { told.add(ADDRESS).cast::<u64>().read_unaligned() }, 16);
    }
    match case {
        NO_CASE => put(b", outside of a call"),
        case => {
            put(b" in ");
            put(operation.as_bytes());
            put(b"; to repeat it: --seed ");
            put_number(SEED.load(Ordering::Relaxed), 10);
            put(b" --first ");
            put_number(case, 10);
            put(b" --cases 1");
        }
    }
    put(b"\n0 passed, 1 failed\n");
    // SAFETY: the program ends here.
    unsafe { _exit(1) }
}
