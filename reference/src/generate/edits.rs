//! Edits: blocks of the right kind and of others, at any level, with the plan at its limits.

use super::blocks::path_in;
use super::cards::{card_for, card_of};
use super::damage::damage_bytes;
use super::exact::{exact_language, exact_tree, EXACT_KIND};
use super::indexes::{index_bytes, index_for, indexed_tree_case, is_legal, room_for};
use super::languages::encoded;
use super::random::Random;
use super::trees::{Grower, TreeCase};
use crate::block::{find_place, Place};
use crate::edit::{edit, EditInput};
use crate::grammar::Grammar;
use crate::index::{ENTRY_BYTES, INDEXED_BYTES};
use crate::language::{read_language, Kinds, Language};
use crate::tree::TREE_LEVELS;

/// The input of an edit, with the lengths of its outputs.
#[derive(Clone, Debug)]
pub struct EditCase {
    pub language: Vec<u8>,
    pub root: u32,
    pub tree: Vec<u8>,
    pub index: Vec<u8>,
    pub path: Vec<u8>,
    pub card: Vec<u8>,
    pub block: Vec<u8>,
    pub plan: usize,
    pub plan_index: usize,
}

/// One edit in so many is of a plan at the limit of length.
const CASES_FOR_A_LIMIT: usize = 400;

impl EditCase {
    /// What the edit is given.
    pub fn input(&self) -> EditInput<'_> {
        let EditCase { language, tree, index, path, card, block, .. } = self;
        EditInput { language, root: self.root, tree, index, path, card, block }
    }

    /// The lengths of outputs that are long enough.
    pub fn room(&self) -> (usize, usize) {
        let bytes = self.tree.len() + self.block.len();
        (bytes, ENTRY_BYTES * bytes)
    }

    /// The case with the lengths of its outputs: exact, a little short or longer.
    fn with_outputs(mut self, random: &mut Random) -> EditCase {
        let (plan, index) = self.room();
        let found = edit(&self.input(), &mut vec![0; plan], &mut vec![0; index]);
        self.plan = room_for(random, found.outcome.length() as usize);
        self.plan_index = room_for(random, found.index_length as usize);
        if random.percent(60) {
            self.plan = self.plan.max(found.outcome.length() as usize);
            self.plan_index = self.plan_index.max(found.index_length as usize);
        }
        self
    }
}

/// Where a path leads in a legal tree, if it does.
fn place_in(language: &Language, case: &TreeCase, path: &[u8]) -> Option<(Place, usize)> {
    let grammar = Grammar::new(language);
    let place = find_place(&grammar, case.root as u8, &case.tree, path).ok()?;
    Some((place, place.end(&grammar, &case.tree)))
}

/// A legal tree of a kind that has one, about as high as it may be at a level, or low.
fn grown_block(random: &mut Random, language: &Language, kind: u8, levels: usize) -> Vec<u8> {
    let mut grower = Grower::new(language);
    grower.wild = random.percent(10);
    grower.budget = random.pick(&[0, 20, 20, 300]);
    let least = grower.heights.least(kind).expect("the kind has a tree");
    let wanted = match random.below(5) {
        0 => levels,
        1 => levels + 1,
        2 => levels + random.below(3),
        _ => random.within(0..=6),
    };
    let height = grower.heights.greatest(kind, wanted.max(least)).expect("not below the least");
    let mut block = Vec::new();
    grower.grow(random, kind, height, &mut block);
    block
}

/// Damages a block in some cases.
fn damage_block(random: &mut Random, block: &mut Vec<u8>) {
    match random.below(20) {
        0 => damage_bytes(random, block),
        1 => block.truncate(block.len().saturating_sub(random.within(1..=3))),
        2 => block.push(random.byte()),
        3 => block.clear(),
        _ => {}
    }
}

/// A block for a place in the tree of a case: another of its kind, the same, or a wrong one.
fn block_for(random: &mut Random, case: &TreeCase, path: &[u8]) -> Vec<u8> {
    let language = read_language(&case.language).expect("an accepted language");
    let Some((place, end)) = place_in(&language, case, path) else { return vec![0, 5] };
    let mut block = match random.below(12) {
        0 => case.tree[place.start..end].to_vec(),
        1 => case.tree.clone(),
        _ => grown_block(random, &language, place.kind, TREE_LEVELS - path.len()),
    };
    damage_block(random, &mut block);
    block
}

/// An edit after which the plan has about the most bytes that an index is for.
fn limit_case(random: &mut Random) -> EditCase {
    let language = exact_language();
    let bytes = random.pick(&[INDEXED_BYTES, INDEXED_BYTES, 40_000, 9000, 70]);
    let tree = exact_tree(random, bytes);
    let case = TreeCase { language: encoded(&language), root: u32::from(EXACT_KIND), tree };
    let path = path_in(random, &case, 0);
    let place = place_in(&language, &case, &path);
    let block = match place {
        Some((place, end)) if place.kind == EXACT_KIND => {
            let others = bytes - (end - place.start);
            let wanted = INDEXED_BYTES + 1 - random.pick(&[0, 0, 1, 1, 1, 2]);
            exact_tree(random, wanted.saturating_sub(others).max(1))
        }
        _ => vec![0, 5],
    };
    let (index, card) = (index_bytes(&case), card_of(Kinds::MAX));
    let TreeCase { language, root, tree } = case;
    EditCase { language, root, tree, index, path, card, block, plan: 0, plan_index: 0 }
}

/// So many cases are made, mostly, to find one with a tree of some bytes.
const TRIES: usize = 4;
const SOME_BYTES: usize = 8;

/// A language, a root and a tree, which is mostly more than a token or a leaf.
fn mostly_larger_case(random: &mut Random) -> TreeCase {
    let mut case = indexed_tree_case(random);
    for _ in 1..TRIES {
        if case.tree.len() < SOME_BYTES {
            case = indexed_tree_case(random);
        }
    }
    case
}

/// A language, a root, a tree with an index, a path, a card, a block and the lengths of both outputs.
pub fn edit_case(random: &mut Random) -> EditCase {
    if random.below(CASES_FOR_A_LIMIT) == 0 {
        return limit_case(random).with_outputs(random);
    }
    let case = mostly_larger_case(random);
    let (path, block) = match is_legal(&case) {
        true => {
            let path = path_in(random, &case, 12);
            let block = block_for(random, &case, &path);
            (path, block)
        }
        false => (vec![random.below(3) as u8], vec![0, 5]),
    };
    let index = index_for(random, &case, 10);
    let card = card_for(random, &case.language, 75, 4);
    let TreeCase { language, root, tree } = case;
    let case = EditCase { language, root, tree, index, path, card, block, plan: 0, plan_index: 0 };
    case.with_outputs(random)
}
