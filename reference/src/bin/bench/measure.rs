//! Timing of two functions in turn, of each on small inputs and a large one in turn, and the median
//! of several rounds.
//!
//! Times are processor times of the thread, so other programs disturb them less.

use crate::clock::processor_time;
use std::fmt::Debug;
use std::hint::black_box;
use std::time::Duration;

/// Both functions are timed in at most so many rounds, and in at least the least number.
const MOST_ROUNDS: usize = 41;
const LEAST_ROUNDS: usize = 7;
/// A timing of one function in a round takes at least about this long.
const LEAST: Duration = Duration::from_millis(2);
/// All rounds together take about this long, unless the least number takes longer.
const TOTAL: Duration = Duration::from_secs(1);
/// Growth is measured in so many rounds, an odd number.
const GROWTH_ROUNDS: usize = 9;

/// What was measured: for both sides the median time of a call, and the median ratio.
#[derive(Clone, Copy)]
pub struct Timing {
    /// Nanoseconds for a call of the library.
    pub library: f64,
    /// Nanoseconds for a call of the reference.
    pub reference: f64,
    /// The reference's time over the library's in the same round.
    pub ratio: f64,
}

/// Times both functions in turn, round by round.
pub fn compare<A, B>(mut library: impl FnMut() -> A, mut reference: impl FnMut() -> B) -> Timing {
    let (library_calls, reference_calls) = (calls(&mut library), calls(&mut reference));
    let start = processor_time();
    let mut times = Vec::new();
    while times.len() < LEAST_ROUNDS
        || times.len() < MOST_ROUNDS && processor_time() - start < TOTAL
    {
        times.push((time(&mut library, library_calls), time(&mut reference, reference_calls)));
    }
    Timing {
        library: median(times.iter().map(|(library, _)| *library)),
        reference: median(times.iter().map(|(_, reference)| *reference)),
        ratio: median(times.iter().map(|(library, reference)| reference / library)),
    }
}

/// The time for a byte of the large input over that of small ones, the median for both sides.
pub struct Growth {
    pub library: f64,
    pub reference: f64,
}

/// Measures the growth of both functions in turn, round by round, after a call of each on every
/// input that is not timed: both give the same, and the small inputs the large one's number.
pub fn growth<A: PartialEq + Debug>(
    small: &[impl AsRef<[u8]>],
    large: &[u8],
    mut library: impl FnMut(&[u8]) -> (u32, A),
    mut reference: impl FnMut(&[u8]) -> (u32, A),
) -> Growth {
    let number = reference(large).0;
    for input in small.iter().map(AsRef::as_ref).chain([large]) {
        let expected = reference(input);
        assert_eq!((expected.0, library(input)), (number, expected));
    }
    let mut rounds = Vec::new();
    for _ in 0..GROWTH_ROUNDS {
        let library = pair(small, large, &mut library);
        rounds.push((library, pair(small, large, &mut reference)));
    }
    Growth {
        library: median(rounds.iter().map(|(library, _)| *library)),
        reference: median(rounds.iter().map(|(_, reference)| *reference)),
    }
}

/// One small input as many times as makes about the bytes of the large one.
pub fn repeated<'a>(small: &'a [u8], large: &[u8]) -> Vec<&'a [u8]> {
    let times = (large.len() as f64 / small.len() as f64).round() as usize;
    vec![small; times.max(1)]
}

/// The growth from one pair of timings: one call on each of the small inputs, and right after them
/// one call on the large input.
fn pair<A>(small: &[impl AsRef<[u8]>], large: &[u8], function: &mut impl FnMut(&[u8]) -> A) -> f64 {
    let bytes: usize = small.iter().map(|input| input.as_ref().len()).sum();
    let mut all = || {
        for input in small {
            drop(black_box(function(black_box(input.as_ref()))));
        }
    };
    let small_time = time(&mut all, 1);
    let large_time = time(&mut || function(black_box(large)), 1);
    (large_time / large.len() as f64) / (small_time / bytes as f64)
}

/// How many calls take about the least time of a round.
fn calls<A>(function: &mut impl FnMut() -> A) -> u32 {
    let mut calls = 1;
    loop {
        let elapsed = time(function, calls) * f64::from(calls);
        let wanted = LEAST.as_nanos() as f64;
        if elapsed >= wanted / 4.0 {
            return ((wanted / elapsed * f64::from(calls)) as u32).max(1);
        }
        calls *= 2;
    }
}

/// Nanoseconds for one call, from so many calls.
fn time<A>(function: &mut impl FnMut() -> A, calls: u32) -> f64 {
    let start = processor_time();
    (0..calls).for_each(|_| drop(black_box(function())));
    (processor_time() - start).as_secs_f64() * 1e9 / f64::from(calls)
}

/// The middle of the values.
fn median(values: impl Iterator<Item = f64>) -> f64 {
    let mut values: Vec<f64> = values.collect();
    values.sort_unstable_by(f64::total_cmp);
    values[values.len() / 2]
}
