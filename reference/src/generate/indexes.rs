//! Indexes of trees: right ones, ones that are a little wrong, and trees at the limit of length.

use super::damage::damage_bytes;
use super::exact::{exact_language, exact_tree, EXACT_KIND};
use super::languages::encoded;
use super::long_trees::long_tree_case;
use super::random::Random;
use super::trees::{tree_case, TreeCase};
use crate::check_tree;
use crate::grammar::Grammar;
use crate::index::{entries, ENTRY_BYTES, INDEXED_BYTES};
use crate::language::read_language;

/// The input of an index to be built.
#[derive(Clone, Debug)]
pub struct IndexCase {
    pub language: Vec<u8>,
    pub root: u32,
    pub tree: Vec<u8>,
    pub output: usize,
}

/// One case in so many has a long tree, and one a tree at the limit.
const CASES_FOR_A_LONG_ONE: usize = 300;
const CASES_FOR_A_LIMIT: usize = 500;

/// A tree of about the most bytes that an index is for.
fn limit_case(random: &mut Random) -> TreeCase {
    let bytes = INDEXED_BYTES + random.pick(&[0, 0, 0, 1, 1, 2]) - random.pick(&[0, 0, 1]);
    let mut tree = exact_tree(random, bytes);
    if random.percent(5) {
        damage_bytes(random, &mut tree);
    }
    TreeCase { language: encoded(&exact_language()), root: u32::from(EXACT_KIND), tree }
}

/// A language, a root and a tree, which is sometimes long or about as long as it may be.
pub fn indexed_tree_case(random: &mut Random) -> TreeCase {
    if random.below(CASES_FOR_A_LIMIT) == 0 {
        return limit_case(random);
    }
    match random.below(CASES_FOR_A_LONG_ONE) {
        0 => long_tree_case(random),
        _ => tree_case(random),
    }
}

/// Whether the tree of a case is legal.
pub fn is_legal(case: &TreeCase) -> bool {
    check_tree(&case.language, case.root, &case.tree).number() == 0
}

/// The entries of the tree of a case that is legal; none of another.
pub fn index_bytes(case: &TreeCase) -> Vec<u8> {
    if !is_legal(case) {
        return vec![];
    }
    let language = read_language(&case.language).expect("an accepted language");
    entries(&Grammar::new(&language), case.root as u8, &case.tree)
}

/// Makes an index wrong: one byte, its length, or the order of its entries.
fn damage_index(random: &mut Random, index: &mut Vec<u8>) {
    let (place, entry) = (random.below(index.len() + 1), ENTRY_BYTES.min(index.len()));
    match random.below(9) {
        0 | 1 if place < index.len() => index[place] = index[place].wrapping_add(1),
        2 if place < index.len() => index[place] ^= 1 << random.below(8),
        3 => index.truncate(index.len().saturating_sub(1)),
        4 => index.truncate(index.len() - entry),
        5 => index.push(0),
        6 => index.extend_from_slice(&[0; ENTRY_BYTES]),
        7 => index.clear(),
        _ => index.rotate_left(entry),
    }
}

/// An index for the tree of a case, which is wrong in so many of a hundred cases.
pub fn index_for(random: &mut Random, case: &TreeCase, wrong: usize) -> Vec<u8> {
    let mut index = index_bytes(case);
    if random.percent(wrong) {
        damage_index(random, &mut index);
    }
    index
}

/// The length of an output for some bytes: exact, a little short, or some more.
pub fn room_for(random: &mut Random, exact: usize) -> usize {
    match random.below(10) {
        0..=4 => exact,
        5 => exact.saturating_sub(1),
        6 => exact.saturating_sub(ENTRY_BYTES),
        7 => random.below(exact + 1),
        _ => exact + random.below(20),
    }
}

/// A language, a root, a tree and an output length.
pub fn index_case(random: &mut Random) -> IndexCase {
    let case = indexed_tree_case(random);
    let output = room_for(random, index_bytes(&case).len());
    let TreeCase { language, root, tree } = case;
    IndexCase { language, root, tree, output }
}
