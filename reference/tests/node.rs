//! What stands at a path: each refusal, and kinds, names and numbers of arguments against the
//! decoded tree.

mod build;
mod model;

use build::*;
use model::{Grammar, Tree};
use reference::generate::{block_case, index_bytes, BlockCase, Random, TreeCase};
use reference::{block, node};

/// Class 2; kind 1: a leaf 0, a link 1 to itself, 2 with a token, and 255 with tokens around.
fn language() -> Vec<u8> {
    let productions = [(0, &[][..]), (1, &[1]), (2, &[2]), (255, &[2, 1, 2, 1, 2])];
    let productions = productions.map(|(name, of)| production(1, name, of));
    [&[class(2, 5, 9)], &productions[..]].concat().concat()
}

/// Number, kind, name and arguments.
fn found_by(case: &BlockCase) -> [u32; 4] {
    let BlockCase { language, root, tree, index, path } = case;
    let node = node(language, *root, tree, index, path);
    assert_eq!(node.outcome.length(), 0);
    [node.outcome.number(), node.kind, node.name, node.arguments]
}

/// What is found in a tree, with its own index, at a path.
fn found(language: &[u8], root: u32, tree: &[u8], path: &[u8]) -> [u32; 4] {
    let case = TreeCase { language: language.to_vec(), root, tree: tree.to_vec() };
    let index = index_bytes(&case);
    let TreeCase { language, root, tree } = case;
    found_by(&BlockCase { language, root, tree, index, path: path.to_vec() })
}

/// A tree with five arguments, of which the second and the fourth have one too.
const TREE: [u8; 12] = [255, 0, 5, 2, 0, 6, 0, 7, 1, 0, 0, 9];

#[test]
fn nodes_at_each_place() {
    let at = |path: &[u8]| found(&language(), 1, &TREE, path);
    assert_eq!(at(&[]), [0, 1, 255, 5]);
    assert_eq!(at(&[1]), [0, 2, 256, 0]);
    assert_eq!(at(&[2]), [0, 1, 2, 1]);
    assert_eq!(at(&[2, 1]), [0, 2, 256, 0]);
    assert_eq!(at(&[4]), [0, 1, 1, 1]);
    assert_eq!(at(&[4, 1]), [0, 1, 0, 0]);
    assert_eq!(at(&[5]), [0, 2, 256, 0]);
    for path in [&[0][..], &[6], &[255], &[1, 1], &[1, 0], &[2, 2], &[4, 1, 1], &[4, 1, 0]] {
        assert_eq!(at(path), [21, 0, 0, 0], "{path:?}");
    }
}

#[test]
fn a_token_as_the_whole_tree() {
    let token = |path: &[u8]| found(&language(), 2, &[0, 5], path);
    assert_eq!(token(&[]), [0, 2, 256, 0]);
    assert_eq!(token(&[1]), [21, 0, 0, 0]);
}

#[test]
fn the_kind_is_the_one_that_the_production_gives() {
    let twice = [production(1, 7, &[3]), production(1, 8, &[]), production(3, 7, &[1, 1])].concat();
    let tree = [7, 7, 8, 8];
    assert_eq!(found(&twice, 1, &tree, &[]), [0, 1, 7, 1]);
    assert_eq!(found(&twice, 1, &tree, &[1]), [0, 3, 7, 2]);
    assert_eq!(found(&twice, 1, &tree, &[1, 2]), [0, 1, 8, 0]);
    assert_eq!(found(&twice, 3, &tree[1..], &[]), [0, 3, 7, 2]);
}

#[test]
fn refusals_in_their_order() {
    let number = |language: &[u8], root, tree: &[u8]| found(language, root, tree, &[9]);
    assert_eq!(number(&[0; 1025], 1, &TREE), [1, 0, 0, 0]);
    assert_eq!(number(&[0x12], 1, &TREE), [2, 0, 0, 0]);
    assert_eq!(number(&[language(), class(2, 5, 9)].concat(), 1, &TREE), [3, 0, 0, 0]);
    let clash = [class(1, 5, 9), language()[8..].to_vec()].concat();
    assert_eq!(number(&clash, 1, &TREE), [4, 0, 0, 0]);
    assert_eq!(number(&language(), 3, &TREE), [14, 0, 0, 0]);
    assert_eq!(number(&language(), 1, &TREE[..11]), [15, 0, 0, 0]);
    assert_eq!(number(&language(), 1, &[1; 65]), [16, 0, 0, 0]);
    let (language, tree) = (language(), TREE.to_vec());
    let other = BlockCase { language, root: 1, tree, index: vec![0; 32], path: vec![9] };
    assert_eq!(found_by(&other), [22, 0, 0, 0]);
}

#[test]
fn a_path_through_all_levels() {
    let deep = |links: usize, path: &[u8]| {
        found(&language(), 1, &[&vec![1; links][..], &[2, 0, 5]].concat(), path)
    };
    assert_eq!(deep(63, &[1; 62]), [0, 1, 1, 1]);
    assert_eq!(deep(63, &[1; 63]), [0, 1, 2, 1]);
    assert_eq!(deep(63, &[1; 64]), [0, 2, 256, 0]);
    assert_eq!(deep(63, &[1; 65]), [21, 0, 0, 0]);
    assert_eq!(deep(64, &[]), [16, 0, 0, 0]);
}

/// The subtree at a path by its definition.
fn defined<'a>(tree: &'a Tree, path: &[u8]) -> Option<&'a Tree> {
    path.iter()
        .try_fold(tree, |tree, &number| tree.arguments().get(usize::from(number).checked_sub(1)?))
}

/// Kind, name and number of arguments of a decoded tree.
fn figures(tree: &Tree) -> [u32; 3] {
    match tree {
        Tree::Token { kind, .. } => [u32::from(*kind), 256, 0],
        Tree::Production { kind, name, arguments } => {
            [u32::from(*kind), u32::from(*name), arguments.len() as u32]
        }
    }
}

#[test]
fn nodes_are_as_decoded_and_every_answer_is_reached() {
    let (mut random, mut counts) = (Random::new(22), [0; 23]);
    let mut tokens = 0;
    for _ in 0..20_000 {
        let case = block_case(&mut random);
        let [number, kind, name, arguments] = found_by(&case);
        let BlockCase { language, root, tree, index, path } = &case;
        let looked_up = block(language, *root, tree, index, path);
        assert_eq!((number, kind), (looked_up.outcome.number(), looked_up.kind), "{case:?}");
        counts[number as usize] += 1;
        tokens += usize::from(name == 256);
        let expected = match number {
            0 => {
                let whole = Grammar::new(language).tree(*root, tree);
                figures(defined(&whole, path).expect("the path leads to a block"))
            }
            _ => [0, 0, 0],
        };
        assert_eq!([kind, name, arguments], expected, "{case:?}");
    }
    for (number, &count) in counts.iter().enumerate() {
        let possible = [0, 1, 2, 3, 4, 14, 15, 16, 21, 22].contains(&number);
        assert_eq!(count >= 20, possible, "{number}: {counts:?}");
    }
    assert!(tokens > 1000, "{tokens}");
}
