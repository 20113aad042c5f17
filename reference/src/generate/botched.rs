//! Trees that are botched in all sorts of ways, early and late, and some that are not.

use super::damage::damage_bytes;
use super::indexes::indexed_tree_case;
use super::random::Random;
use super::trees::TreeCase;
use crate::language::read_language;
use crate::tree::TREE_LEVELS;

/// So many cases are made, mostly, to find one with a tree of some bytes.
const TRIES: usize = 3;
const SOME_BYTES: usize = 5;

/// A part of a tree, from one place to another.
fn part(random: &mut Random, tree: &[u8]) -> Vec<u8> {
    let (one, other) = (random.below(tree.len() + 1), random.below(tree.len() + 1));
    tree[one.min(other)..one.max(other)].to_vec()
}

/// Cuts a tree at any place, or a little before its end.
fn cut(random: &mut Random, tree: &mut Vec<u8>) {
    let length = match random.percent(50) {
        true => random.below(tree.len() + 1),
        false => tree.len().saturating_sub(random.within(1..=3)),
    };
    tree.truncate(length);
}

/// Adds bytes behind a tree: any ones, zeros, or a part of itself.
fn extend(random: &mut Random, tree: &mut Vec<u8>) {
    let more = match random.below(3) {
        0 => vec![random.byte()],
        1 => vec![0; random.within(1..=4)],
        _ => part(random, tree),
    };
    tree.extend(more);
}

/// Puts a part of a tree in the place of another part, or between two bytes.
fn splice(random: &mut Random, tree: &mut Vec<u8>) {
    let (part, start) = (part(random, tree), random.below(tree.len() + 1));
    let end = if random.percent(50) { start } else { random.within(start..=tree.len()) };
    tree.splice(start..end, part);
}

/// Repeats a name that has its own kind among its arguments, about as often as there are levels.
fn deepen(random: &mut Random, case: &mut TreeCase) {
    let Ok(language) = read_language(&case.language) else { return };
    let productions = language.productions.iter();
    let nests =
        productions.filter(|production| production.arguments().contains(&production.result));
    let names: Vec<u8> = nests.map(|production| production.name).collect();
    if !names.is_empty() {
        let name = random.pick(&names);
        let links = random.within(TREE_LEVELS - 3..=TREE_LEVELS + 1);
        let place = if random.percent(50) { 0 } else { random.below(case.tree.len() + 1) };
        case.tree.splice(place..place, vec![name; links]);
    }
}

/// Botches the tree of a case once.
fn botch(random: &mut Random, case: &mut TreeCase) {
    match random.below(16) {
        0..=5 => damage_bytes(random, &mut case.tree),
        6 | 7 => cut(random, &mut case.tree),
        8 | 9 => extend(random, &mut case.tree),
        10 | 11 => splice(random, &mut case.tree),
        12..=14 => deepen(random, case),
        _ => case.root = random.below(32) as u32,
    }
}

/// A language, a root and a tree, which is mostly botched once or more often.
pub fn botched_case(random: &mut Random) -> TreeCase {
    let mut case = indexed_tree_case(random);
    for _ in 1..TRIES {
        if case.tree.len() < SOME_BYTES {
            case = indexed_tree_case(random);
        }
    }
    for _ in 0..random.pick(&[0, 1, 1, 1, 2, 3]) {
        botch(random, &mut case);
    }
    case
}
