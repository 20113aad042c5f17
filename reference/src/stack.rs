//! How much stack a call uses: the stack below it is painted, and the paint that the call
//! left alone is looked for from the far end.
#![allow(unsafe_code)]

use std::hint::black_box;
use std::mem::size_of;
use std::thread;

/// The stack of the thread that makes the calls.
const THREAD_STACK: usize = 4 << 20;
/// So many bytes below the caller are painted; a call that uses more is said to use these.
const PAINTED: usize = 2 << 20;
/// So many bytes next to the caller are not painted, since the painter itself needs some.
/// A call that uses fewer is said to use these.
const SPARED: usize = 1024;
/// What is painted, a word that no program is likely to store.
const PAINT: u64 = 0xA5C3_5A3C_96E1_69D2;

/// A thread with a large stack; it shows that calls are measured there.
pub struct LargeStack(());

/// Does some work on a thread with a stack that is large enough to be painted.
pub fn on_large_stack<T: Send>(work: impl FnOnce(&LargeStack) -> T + Send) -> T {
    let work = || work(&LargeStack(()));
    thread::scope(|scope| {
        let thread = thread::Builder::new().stack_size(THREAD_STACK).spawn_scoped(scope, work);
        thread.expect("a thread can be started").join().expect("the work does not panic")
    })
}

impl LargeStack {
    /// The bytes of stack that a call uses below this frame, those of the closure among them.
    #[inline(never)]
    pub fn bytes_used(&self, call: &mut dyn FnMut()) -> usize {
        let mark = 0u64;
        let top = black_box(&mark) as *const u64 as usize;
        paint(top - PAINTED, top - SPARED);
        call();
        top - lowest_use(top - PAINTED, top - SPARED)
    }
}

/// Paints the stack from one place to another.
#[inline(never)]
fn paint(mut place: usize, end: usize) {
    while place < end {
        // SAFETY: the stack of the thread reaches further down than what is painted, and the
        // frames of this function and its callers lie above the end.
        unsafe { (place as *mut u64).write_volatile(PAINT) };
        place += size_of::<u64>();
    }
}

/// The lowest place up to an end that is not as it was painted.
#[inline(never)]
fn lowest_use(mut place: usize, end: usize) -> usize {
    // SAFETY: as for painting.
    while place < end && unsafe { (place as *const u64).read_volatile() } == PAINT {
        place += size_of::<u64>();
    }
    place
}
