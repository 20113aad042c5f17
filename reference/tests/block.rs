//! Blocks of a tree: each refusal, and lookups against the definition.

mod build;
mod model;

use build::*;
use model::{own_index, Grammar, Tree};
use reference::call::Answer;
use reference::generate::{block_case, index_bytes, Random, TreeCase};
use reference::{block, check_tree};

/// Class 2; kind 1: a leaf 0, a link 1 to itself, 2 with a token, and 3 with tokens around.
fn language() -> Vec<u8> {
    let productions = [&[][..], &[1], &[2], &[2, 1, 2, 1, 2]];
    let productions = (0..).zip(productions).map(|(name, of)| production(1, name, of));
    [vec![class(2, 5, 9)], productions.collect()].concat().concat()
}

/// The answer of a lookup by a root and the tree's own index.
fn answer(language: &[u8], root: u32, tree: &[u8], path: &[u8]) -> Answer {
    let case = TreeCase { language: language.to_vec(), root, tree: tree.to_vec() };
    answer_by(language, root, tree, &index_bytes(&case), path)
}

/// The answer of a lookup by a root and an index; the part lies in the tree at the start that is
/// told.
fn answer_by(language: &[u8], root: u32, tree: &[u8], index: &[u8], path: &[u8]) -> Answer {
    let found = block(language, root, tree, index, path);
    let (start, length) = (found.start as usize, found.outcome.length() as usize);
    assert_eq!(found.part, &tree[start..start + length]);
    if found.outcome.number() == 0 {
        assert_eq!(found.part.as_ptr(), tree[start..].as_ptr());
    }
    found.into()
}

/// The number, start, length and kind of a lookup in a tree of kind 1.
fn found(tree: &[u8], path: &[u8]) -> (u32, u64, u64, u32) {
    let Answer { number, start, length, kind, .. } = answer(&language(), 1, tree, path);
    (number, start, length, kind)
}

/// A refusal of a lookup in a tree of kind 1.
fn refused(tree: &[u8], path: &[u8]) -> u32 {
    let (number, start, length, kind) = found(tree, path);
    assert_eq!((start, length, kind), (0, 0, 0));
    number
}

/// A tree with five arguments, of which the fourth has one too.
const TREE: [u8; 12] = [3, 0, 5, 2, 0, 6, 0, 7, 1, 0, 0, 9];

#[test]
fn blocks_at_each_place() {
    assert_eq!(found(&TREE, &[]), (0, 0, 12, 1));
    assert_eq!(found(&TREE, &[1]), (0, 1, 2, 2));
    assert_eq!(found(&TREE, &[2]), (0, 3, 3, 1));
    assert_eq!(found(&TREE, &[2, 1]), (0, 4, 2, 2));
    assert_eq!(found(&TREE, &[3]), (0, 6, 2, 2));
    assert_eq!(found(&TREE, &[4]), (0, 8, 2, 1));
    assert_eq!(found(&TREE, &[4, 1]), (0, 9, 1, 1));
    assert_eq!(found(&TREE, &[5]), (0, 10, 2, 2));
}

#[test]
fn numbers_that_no_argument_has() {
    for path in [&[0][..], &[6], &[255], &[1, 1], &[1, 0], &[2, 2], &[2, 0], &[2, 1, 1]] {
        assert_eq!(refused(&TREE, path), 21, "{path:?}");
    }
    for path in [&[4, 2][..], &[4, 1, 1], &[4, 1, 0], &[5, 1], &[0, 1], &[9, 9], &[4, 1, 1, 1]] {
        assert_eq!(refused(&TREE, path), 21, "{path:?}");
    }
}

#[test]
fn a_token_as_the_whole_tree() {
    let token = |path: &[u8]| answer(&language(), 2, &[0, 5], path);
    assert_eq!(token(&[]), Answer { length: 2, kind: 2, ..Answer::default() });
    for path in [&[0][..], &[1], &[2]] {
        assert_eq!(token(path), Answer { number: 21, ..Answer::default() });
    }
}

#[test]
fn the_whole_tree_is_refused_before_the_path() {
    let number = |language: &[u8], root, tree: &[u8]| answer(language, root, tree, &[9]).number;
    assert_eq!(number(&[0; 1025], 1, &TREE), 1);
    assert_eq!(number(&[0x12], 1, &TREE), 2);
    assert_eq!(number(&[language(), class(2, 5, 9)].concat(), 1, &TREE), 3);
    assert_eq!(number(&[class(1, 5, 9), language()[8..].to_vec()].concat(), 1, &TREE), 4);
    assert_eq!(number(&language(), 3, &TREE), 14);
    assert_eq!(number(&language(), 256 + 1, &TREE), 14);
    assert_eq!(number(&language(), 1, &TREE[..11]), 15);
    assert_eq!(number(&language(), 1, &[&TREE[..], &[0]].concat()), 15);
    assert_eq!(number(&language(), 1, &[1; 65]), 16);
    assert_eq!(number(&language(), 1, &TREE), 21);
}

#[test]
fn damage_behind_the_block_is_seen() {
    assert_eq!(refused(&[3, 0, 5, 0, 0, 6, 0, 0, 10], &[1]), 15);
    assert_eq!(refused(&[&[3, 0, 5, 0, 0, 6][..], &[1; 65]].concat(), &[2]), 16);
    assert_eq!(refused(&[3, 0, 5, 0, 0, 6, 99, 0, 9], &[]), 15);
}

#[test]
fn a_path_through_all_levels() {
    let deep = |links: usize| [&vec![1; links][..], &[2, 0, 5]].concat();
    assert_eq!(found(&deep(63), &[1; 63]), (0, 63, 3, 1));
    assert_eq!(found(&deep(63), &[1; 64]), (0, 64, 2, 2));
    assert_eq!(refused(&deep(63), &[1; 65]), 21);
    assert_eq!(refused(&deep(64), &[1; 65]), 16);
    assert_eq!(refused(&deep(63), &[1; 100_000]), 21);
}

#[test]
fn an_index_that_is_not_the_trees_own() {
    let own = own_index(&Grammar::new(&language()).tree(1, &TREE));
    let number = |index: &[u8]| answer_by(&language(), 1, &TREE, index, &[9]).number;
    assert_eq!(own.len(), 4 * 8);
    assert_eq!(number(&own), 21);
    for place in 0..own.len() {
        let mut off = own.clone();
        off[place] = off[place].wrapping_add(1);
        assert_eq!(number(&off), 22, "byte {place}");
        assert_eq!(number(&own[..place]), 22, "{place} bytes");
    }
    assert_eq!(number(&[&own[..], &[0]].concat()), 22);
    assert_eq!(number(&[&own[..], &[0; 4]].concat()), 22);
    assert_eq!(answer_by(&language(), 1, &TREE[..11], &own, &[]).number, 15);
}

#[test]
fn eight_arguments() {
    let language = [production(1, 0, &[]), production(1, 8, &[1; 8])].concat();
    let tree = [8, 0, 0, 0, 0, 0, 0, 0, 0];
    for number in 1..=8 {
        let start = u64::from(number);
        let expected = Answer { length: 1, start, kind: 1, ..Answer::default() };
        assert_eq!(answer(&language, 1, &tree, &[number]), expected);
    }
    assert_eq!(answer(&language, 1, &tree, &[9]).number, 21);
}

/// The block by its definition: where it starts, and the decoded subtree.
fn defined(tree: &Tree, path: &[u8], start: usize) -> Option<(usize, Tree)> {
    let Some((&number, rest)) = path.split_first() else {
        return Some((start, tree.clone()));
    };
    let before = usize::from(number).checked_sub(1)?;
    let argument = tree.arguments().get(before)?;
    let lengths = tree.arguments()[..before].iter().map(|tree| tree.bytes().len());
    defined(argument, rest, start + 1 + lengths.sum::<usize>())
}

/// What a lookup must answer.
fn expected(language: &[u8], root: u32, tree: &[u8], index: &[u8], path: &[u8]) -> Answer {
    let number = check_tree(language, root, tree).number();
    if number != 0 {
        return Answer { number, ..Answer::default() };
    }
    if tree.len() > 65_535 || index != own_index(&Grammar::new(language).tree(root, tree)) {
        return Answer { number: 22, ..Answer::default() };
    }
    match defined(&Grammar::new(language).tree(root, tree), path, 0) {
        None => Answer { number: 21, ..Answer::default() },
        Some((start, found)) => {
            let (length, kind) = (found.bytes().len() as u64, u32::from(found.kind()));
            Answer { length, start: start as u64, kind, ..Answer::default() }
        }
    }
}

#[test]
fn lookups_answer_as_defined_and_reach_every_answer() {
    let (mut random, mut counts) = (Random::new(21), [0; 23]);
    let mut deep = 0;
    for case in 0..20_000 {
        let input = block_case(&mut random);
        let (language, root, tree, index) =
            (&input.language, input.root, &input.tree, &input.index);
        let found = answer_by(language, root, tree, index, &input.path);
        let expected = expected(language, root, tree, index, &input.path);
        assert_eq!(found, expected, "case {case}: {input:?}");
        counts[found.number as usize] += 1;
        deep += usize::from(found.number == 0 && input.path.len() >= 60);
        if found.number == 0 {
            let part = block(language, root, tree, index, &input.path).part;
            assert_eq!(check_tree(&input.language, found.kind, part).number(), 0);
        }
    }
    for (number, &count) in counts.iter().enumerate() {
        let possible = [0, 1, 2, 3, 4, 14, 15, 16, 21, 22].contains(&number);
        assert_eq!(count >= 20, possible, "{number}: {counts:?}");
    }
    assert!(deep >= 100, "{deep}");
}
