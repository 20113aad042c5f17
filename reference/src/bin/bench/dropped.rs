//! Times of runs whose clauses drop a long argument in front of one that is used very often.

use crate::inputs::runs::{dropping_doubled, flat, identity};
use crate::measure::compare;
use algebra::raw as library;
use std::hint::black_box;

/// Names of the tree language: a production with one argument that is used twice, and one with two
/// of which the first is dropped.
const TWICE: u8 = 4;
const SECOND: u8 = 2;

/// So many productions that use their argument twice, above dropped parts of these lengths, one
/// behind the other, and a leaf that is used.
fn tree(doublings: usize, dropped: &[usize]) -> Vec<u8> {
    let mut tree = vec![TWICE; doublings];
    for &bytes in dropped {
        tree.push(SECOND);
        tree.extend(flat(bytes));
    }
    tree.push(0);
    tree
}

/// Runs the tree once by the library, and gives the bytes that are read and written.
fn bytes_of(translation: &[u8], tree: &[u8], output: &mut [u8]) -> usize {
    let found = library::run(translation, 1, 0, tree, output);
    assert_eq!(found.number, 0);
    tree.len() + found.length as usize
}

/// Measures one run by the library alone: the reference, which looks for the end of a dropped part at
/// each use, takes seconds. Beside it stands a run of one such part that is kept, as the usual time.
fn bench_one(name: &str, tree: &[u8]) {
    let (dropping, usual) = (dropping_doubled(), identity());
    let kept = flat(200_001);
    let (mut output, mut other) = (vec![0; 2 << 20], vec![0; 2 << 20]);
    let bytes = bytes_of(&dropping, tree, &mut output) as f64;
    let usual_bytes = bytes_of(&usual, &kept, &mut other) as f64;
    let timing = compare(
        || library::run(&dropping, 1, 0, black_box(tree), &mut output),
        || library::run(&usual, 1, 0, black_box(&kept), &mut other),
    );
    let (time, usual_time) = (timing.library / bytes, timing.reference / usual_bytes);
    println!(
        "run, {name}: {time:.2} ns for a byte read or written, {:.2} times the usual",
        time / usual_time
    );
}

/// Measures a dropped part of 4,095 bytes that is passed 2^18 times, two long ones, of which the
/// second is longer and starts where the first does by the last twelve bits, 2^14 times, and short
/// ones, one below the other, too short to be kept and too many for the places, 2^14 times.
pub fn bench() {
    bench_one("4,095 bytes dropped 2^18 times", &tree(18, &[4095]));
    bench_one("200 KB dropped twice 2^14 times", &tree(14, &[200_703, 200_705]));
    bench_one("40 parts of 31 bytes dropped 2^14 times", &tree(14, &[31; 40]));
    bench_one("40 parts of 69 bytes dropped 2^14 times", &tree(14, &[69; 40]));
}
