//! Times of indexes, of lookups of a block and of edits.

use crate::inputs::{tree_language, wide_tree, SEED};
use crate::measure::{compare, growth, repeated};
use crate::{print_growth_of, print_line};
use algebra::raw as library;
use reference::call::library_edit;
use reference::generate::{card_of, index_bytes, EditCase, TreeCase};
use std::hint::black_box;

/// The root kind of the trees, and the most arguments of a production.
const ROOT: u32 = 1;
const ARGUMENTS: u8 = 8;

/// Sizes of the trees in bytes, about; a tree with an index has at most 65,535.
const SIZES: [(&str, usize); 3] = [("1 KB", 1000), ("8 KB", 8000), ("64 KB", 56_000)];
const MOST: usize = 65_535;

/// A tree with its index, a path in it, and the block there.
fn plan(bytes: usize) -> EditCase {
    let (language, tree) = (tree_language(), wide_tree(bytes, SEED));
    assert!(tree.len() <= MOST);
    let case = TreeCase { language, root: ROOT, tree };
    let index = index_bytes(&case);
    let path = last_block(&case, &index);
    let TreeCase { language, root, tree } = case;
    let block = reference::block(&language, root, &tree, &index, &path).part.to_vec();
    let (plan, plan_index, card) = (tree.len(), index.len(), card_of(u32::MAX));
    EditCase { language, root, tree, index, path, card, block, plan, plan_index }
}

/// The path to the last block of the root's kind among the root's arguments: what stands before
/// it is most of the tree.
fn last_block(case: &TreeCase, index: &[u8]) -> Vec<u8> {
    let mut paths = (1..=ARGUMENTS).rev().map(|number| vec![number]);
    let TreeCase { language, root, tree } = case;
    let kind = |path: &[u8]| reference::block(language, *root, tree, index, path).kind;
    paths.find(|path| kind(path) == ROOT).unwrap_or_default()
}

/// The plan whose tree this is.
fn plan_of<'a>(plans: &'a [EditCase], tree: &[u8]) -> &'a EditCase {
    let found = plans.iter().find(|plan| plan.tree.len() == tree.len());
    found.expect("one of the trees")
}

/// Measures an operation of both sides, which give the same numbers, on plans of three sizes, and
/// how the time for a byte grows.
fn bench_operation<A: PartialEq + std::fmt::Debug>(
    name: &str,
    plans: &[EditCase; 3],
    mut library: impl FnMut(&EditCase) -> A,
    mut reference: impl FnMut(&EditCase) -> A,
) {
    for ((size, _), plan) in SIZES.iter().zip(plans) {
        assert_eq!(library(plan), reference(plan));
        let timing = compare(|| library(black_box(plan)), || reference(black_box(plan)));
        print_line(&format!("{name}, {size}"), plan.tree.len(), timing);
    }
    let [small, _, large] = plans;
    let growth = growth(
        &repeated(&small.tree, &large.tree),
        &large.tree,
        |tree| (0, library(plan_of(plans, tree))),
        |tree| (0, reference(plan_of(plans, tree))),
    );
    print_growth_of(name, "64 KB over 1 KB", growth);
}

/// Measures indexes, lookups and edits; an edit puts the block in again that stands there.
pub fn bench() {
    let plans = SIZES.map(|(_, bytes)| plan(bytes));
    let (mut output, mut library_output) = (vec![0; 4 * MOST], vec![0; 4 * MOST]);
    let (mut index, mut library_index) = (output.clone(), output.clone());
    bench_operation(
        "index",
        &plans,
        |plan| library::index(&plan.language, ROOT, &plan.tree, &mut library_output).length,
        |plan| reference::index(&plan.language, ROOT, &plan.tree, &mut output).length(),
    );
    bench_operation(
        "block",
        &plans,
        |plan| library::block(&plan.language, ROOT, &plan.tree, &plan.index, &plan.path).length,
        |plan| {
            let EditCase { language, tree, index, path, .. } = plan;
            reference::block(language, ROOT, tree, index, path).outcome.length()
        },
    );
    bench_operation(
        "edit",
        &plans,
        |plan| library_edit(plan, &mut library_output, &mut library_index).plan_length,
        |plan| reference::edit(&plan.input(), &mut output, &mut index).outcome.length(),
    );
}
