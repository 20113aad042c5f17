//! The measure of stack, on calls whose use is about known.

use reference::stack::on_large_stack;
use std::hint::black_box;

/// A call may use so many bytes more than the array that it fills.
const MORE: usize = 4096;

/// Fills so many bytes of stack.
#[inline(never)]
fn fill<const BYTES: usize>() {
    black_box([1u8; BYTES]);
}

/// Fills some bytes of stack at each of so many levels.
#[inline(never)]
fn nest(levels: usize) {
    let bytes = black_box([1u8; 1000]);
    if levels > 1 {
        nest(levels - 1);
    }
    black_box(bytes);
}

/// The bytes that a call uses.
fn used(call: fn()) -> usize {
    on_large_stack(|stack| stack.bytes_used(&mut || call()))
}

#[test]
fn an_array_is_measured() {
    for (bytes, call) in [(50_000, fill::<50_000> as fn()), (400_000, fill::<400_000>)] {
        let used = used(call);
        assert!(used >= bytes && used <= 2 * bytes + MORE, "{used} for {bytes}");
    }
}

#[test]
fn levels_are_measured() {
    let (few, many) = (used(|| nest(10)), used(|| nest(110)));
    assert!(few >= 10_000 && many - few >= 100_000, "{few} and {many}");
}

#[test]
fn a_use_that_is_over_is_forgotten() {
    let small = on_large_stack(|stack| {
        stack.bytes_used(&mut fill::<400_000>);
        fill::<300_000>();
        stack.bytes_used(&mut || ())
    });
    assert!(small <= MORE, "{small}");
}
