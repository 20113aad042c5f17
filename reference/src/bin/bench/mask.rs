//! Times of masks.

use crate::inputs::{tree_language, Inputs};
use crate::measure::{compare, growth};
use crate::{print_growth, print_line, trees, SIZES};
use algebra::raw as library;
use reference::generate::card_of;
use std::hint::black_box;

/// The root kind of the trees, and the kinds of a card: all, and all but the tokens.
const ROOT: u32 = 1;
const ALL: u32 = u32::MAX;
const NO_TOKENS: u32 = !(1 << 2);

/// Measures masks by one card of trees of three sizes, and how the time for a byte grows.
fn bench_card(name: &str, kinds: u32) {
    let (language, trees, card) = (tree_language(), trees(), card_of(kinds));
    let mut output = vec![0; trees.large().len()];
    let mut library_output = output.clone();
    for ((size, _), tree) in SIZES.iter().zip(&trees.sizes) {
        let expected = reference::mask(&language, ROOT, &card, tree, &mut output);
        let found = library::mask(&language, ROOT, &card, tree, &mut library_output);
        assert_eq!((expected.number(), expected.length()), (0, found.length));
        assert_eq!((found.number, &library_output), (0, &output));
        let timing = compare(
            || library::mask(black_box(&language), ROOT, &card, tree, &mut library_output),
            || reference::mask(black_box(&language), ROOT, &card, tree, &mut output),
        );
        print_line(&format!("mask, {name}, {size}"), tree.len(), timing);
    }
    bench_growth(name, &card, &trees);
}

/// Measures how the time of a mask for a byte grows.
fn bench_growth(name: &str, card: &[u8], trees: &Inputs) {
    let language = tree_language();
    let mut output = vec![0; trees.large().len()];
    let mut library_output = output.clone();
    let growth = growth(
        &trees.small,
        trees.large(),
        |tree| {
            let answer = library::mask(&language, ROOT, card, tree, &mut library_output);
            (answer.number, answer.length)
        },
        |tree| {
            let outcome = reference::mask(&language, ROOT, card, tree, &mut output);
            (outcome.number(), outcome.length())
        },
    );
    print_growth(&format!("mask, {name}"), growth);
}

/// Measures masks that hide nothing, and ones that hide the tokens.
pub fn bench() {
    bench_card("all seen", ALL);
    bench_card("tokens hidden", NO_TOKENS);
}
