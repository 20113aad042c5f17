//! Times of scores, and of load tables joined onto translations.

use crate::inputs::{tree_language, wide_tree, Inputs};
use crate::measure::{compare, growth};
use crate::{print_growth, print_line, trees, SIZES};
use algebra::raw as library;
use reference::files::{clause, load, mapping, production, translation};
use reference::generate::{doubled, ScoreCase};
use std::hint::black_box;

/// The root kind of the trees.
const ROOT: u32 = 1;

/// A table of the trees' language by which scores stay small: signs alternate.
fn tree_table() -> Vec<u8> {
    [
        load(1, 0, 7, &[]),
        load(1, 1, -3, &[1]),
        load(1, 2, 1, &[1, -1]),
        load(1, 3, 0, &[1, 1, -1]),
        load(1, 8, -9, &[1, -1, 1, -1, 1, -1, 1, -1]),
    ]
    .concat()
}

/// Measures scores of trees of three sizes, and how the time for a byte grows.
fn bench_score() {
    let (language, table, trees) = (tree_language(), tree_table(), trees());
    for ((size, _), tree) in SIZES.iter().zip(&trees.sizes) {
        let expected = reference::score(&language, ROOT, tree, &table);
        let found = library::score(&language, ROOT, tree, &table);
        assert_eq!(expected.outcome.number(), 0);
        assert_eq!((found.number, found.score), (0, expected.score));
        let timing = compare(
            || library::score(black_box(&language), ROOT, black_box(tree), &table),
            || reference::score(black_box(&language), ROOT, black_box(tree), &table),
        );
        print_line(&format!("score, {size}"), tree.len(), timing);
    }
    bench_score_growth(&language, &table, &trees);
}

/// Measures how the time of a score for a byte grows.
fn bench_score_growth(language: &[u8], table: &[u8], trees: &Inputs) {
    let growth = growth(
        &trees.small,
        trees.large(),
        |tree| {
            let answer = library::score(language, ROOT, tree, table);
            (answer.number, answer.score)
        },
        |tree| {
            let expected = reference::score(language, ROOT, tree, table);
            (expected.outcome.number(), expected.score)
        },
    );
    print_growth("score", growth);
}

/// A tree as a loose plan: each value stands twice.
fn loose_plan(language: &[u8], table: &[u8], tree: Vec<u8>) -> Vec<u8> {
    let (language, table) = (language.to_vec(), table.to_vec());
    doubled(&ScoreCase { language, root: ROOT, tree, table })
}

/// Measures scores of loose plans of three sizes, and how the time for a byte grows.
fn bench_loose() {
    let (language, table) = (tree_language(), tree_table());
    let plans = Inputs::new(|bytes, seed| loose_plan(&language, &table, wide_tree(bytes, seed)));
    for ((size, _), plan) in SIZES.iter().zip(&plans.sizes) {
        let expected = reference::score_loose(&language, ROOT, plan, &table);
        let found = library::score_loose(&language, ROOT, plan, &table);
        assert_eq!(expected.outcome.number(), 0);
        let ends = (expected.ends.least, expected.ends.greatest);
        assert_eq!((found.number, (found.least, found.greatest)), (0, ends));
        let timing = compare(
            || library::score_loose(black_box(&language), ROOT, black_box(plan), &table),
            || reference::score_loose(black_box(&language), ROOT, black_box(plan), &table),
        );
        print_line(&format!("score_loose, {size} if settled"), plan.len(), timing);
    }
    bench_loose_growth(&language, &table, &plans);
}

/// Measures how the time of a loose plan's score for a byte grows.
fn bench_loose_growth(language: &[u8], table: &[u8], plans: &Inputs) {
    let growth = growth(
        &plans.small,
        plans.large(),
        |plan| {
            let answer = library::score_loose(language, ROOT, plan, table);
            (answer.number, (answer.least, answer.greatest))
        },
        |plan| {
            let expected = reference::score_loose(language, ROOT, plan, table);
            (expected.outcome.number(), (expected.ends.least, expected.ends.greatest))
        },
    );
    print_growth("score_loose", growth);
}

/// The productions of the source that tables are joined onto; with them the source has 1,022 bytes.
const PRODUCTIONS: u8 = 146;

/// A translation of about 4,000 bytes, and a table of its target.
fn wide_translation() -> (Vec<u8>, Vec<u8>) {
    let names = 0..PRODUCTIONS;
    let source: Vec<u8> = names.clone().flat_map(|name| production(3, name, &[3, 3])).collect();
    let arguments: [&[u8]; 3] = [&[], &[1], &[1, 1]];
    let target = (0..).zip(arguments).flat_map(|(name, of)| production(1, name, of));
    let code = [1, 2, 1, 1, 3, 1, 1, 2, 3, 2, 1, 1, 1, 0];
    let clauses: Vec<u8> = names.flat_map(|name| clause(3, name, &code)).collect();
    let body = [mapping(3, 1), clauses].concat();
    let table = [load(1, 0, 5, &[]), load(1, 1, -2, &[3]), load(1, 2, 1, &[2, -7])].concat();
    (translation(&source, &target.collect::<Vec<_>>(), &body), table)
}

/// Measures the join of a table onto a translation of about 4,000 bytes.
fn bench_join() {
    let (translation, table) = wide_translation();
    let (mut output, mut library_output) = (vec![0; 5000], vec![0; 5000]);
    let expected = reference::join_table(&translation, &table, &mut output);
    assert_eq!(expected.number(), 0);
    let found = library::join_table(&translation, &table, &mut library_output);
    assert_eq!((found.number, found.length), (0, expected.length()));
    assert_eq!(output, library_output);
    let timing = compare(
        || library::join_table(black_box(&translation), black_box(&table), &mut library_output),
        || reference::join_table(black_box(&translation), black_box(&table), &mut output),
    );
    let name = format!("join_table, {PRODUCTIONS} clauses (gives {})", expected.length());
    print_line(&name, translation.len(), timing);
}

/// Measures scores of fixed and loose plans, and a join.
pub fn bench() {
    bench_score();
    bench_loose();
    bench_join();
}
