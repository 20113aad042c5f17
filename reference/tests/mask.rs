//! Masked plans: cards that are broken or out of order, each refusal, and random cases against the
//! definition.

mod build;
mod model;

use build::*;
use model::{fields, Grammar, Tree};
use reference::generate::{mask_case, MaskCase, Random};
use reference::laws::masks::{law_of_masks, SAID};
use reference::{check_tree, mask};

/// Class 2; kind 1: a leaf 0, a link 1, 2 with a token, 3 with tokens around and a block of kind 3;
/// kind 3: 0 with a token.
fn language() -> Vec<u8> {
    [
        class(2, 5, 9),
        production(1, 0, &[]),
        production(1, 1, &[1]),
        production(1, 2, &[2]),
        production(1, 3, &[2, 3, 1, 2]),
        production(3, 0, &[2]),
    ]
    .concat()
}

/// Number and output of a mask, with an output of so many bytes.
fn answer(language: &[u8], root: u32, card: &[u8], tree: &[u8], room: usize) -> (u32, Vec<u8>) {
    let mut output = vec![0xEE; room];
    let outcome = mask(language, root, card, tree, &mut output);
    let (found, rest) = output.split_at(outcome.length() as usize);
    assert!(rest.iter().all(|&byte| byte == 0xEE));
    assert!(outcome.number() == 0 || found.is_empty());
    (outcome.number(), found.to_vec())
}

/// A tree of kind 1 as one sees it who may see these kinds.
fn seen(tree: &[u8], kinds: &[u8]) -> (u32, Vec<u8>) {
    answer(&language(), 1, &card(kinds), tree, tree.len())
}

/// 3 of a token, a block of kind 3, a block of kind 1 and a token.
const TREE: [u8; 11] = [3, 0, 5, 0, 0, 6, 2, 0, 7, 0, 8];

#[test]
fn hidden_blocks_are_one_byte() {
    let all: Vec<u8> = (0..32).collect();
    assert_eq!(seen(&TREE, &[1, 2, 3]), (0, TREE.to_vec()));
    assert_eq!(seen(&TREE, &all), (0, TREE.to_vec()));
    assert_eq!(seen(&TREE, &[1, 3]), (0, vec![3, 0xFF, 0, 0xFF, 2, 0xFF, 0xFF]));
    assert_eq!(seen(&TREE, &[1, 2]), (0, vec![3, 0, 5, 0xFF, 2, 0, 7, 0, 8]));
    assert_eq!(seen(&TREE, &[1]), (0, vec![3, 0xFF, 0xFF, 2, 0xFF, 0xFF]));
    assert_eq!(seen(&TREE, &[2, 3]), (0, vec![0xFF]));
    assert_eq!(seen(&TREE, &[]), (0, vec![0xFF]));
    assert_eq!(answer(&language(), 2, &card(&[1]), &[0, 5], 1), (0, vec![0xFF]));
    assert_eq!(answer(&language(), 2, &card(&[2]), &[0, 5], 2), (0, vec![0, 5]));
}

#[test]
fn the_output_is_measured_by_the_masked_plan() {
    let by = |room| answer(&language(), 1, &card(&[1]), &TREE, room).0;
    assert_eq!([by(7), by(6), by(5), by(0)], [0, 0, 17, 17]);
    assert_eq!(answer(&language(), 1, &card(&[]), &TREE, 1).0, 0);
    assert_eq!(answer(&language(), 1, &card(&[]), &TREE, 0).0, 17);
}

#[test]
fn cards_that_are_broken_or_out_of_order() {
    let number = |card: &[u8]| answer(&language(), 1, card, &TREE, 20).0;
    let broken: [&[u8]; 9] = [
        &[],
        &[0x27],
        &[0x27, 0],
        &[0x27, 0, 1],
        &[0x27, 0, 0, 0],
        &[0x26, 0, 1, 1],
        &[0x27, 0, 1, 32],
        &[0x27, 0, 2, 255, 1],
        &[0x27, 0, 1, 1, 0x27, 0, 0],
    ];
    for card in broken {
        assert_eq!(number(card), 2, "{card:?}");
    }
    for kinds in [&[2, 1][..], &[1, 1], &[0, 1, 2, 3, 2], &[31, 0]] {
        assert_eq!(number(&card(kinds)), 3, "{kinds:?}");
    }
    assert_eq!(number(&card(&[2, 1, 32])), 2);
    assert_eq!(number(&[&card(&[2, 1])[..], &[0]].concat()), 2);
    let every: Vec<u8> = (0..=31).collect();
    assert_eq!(number(&card(&every)), 0);
    assert_eq!(number(&card(&(0..=32).collect::<Vec<u8>>())), 2);
    assert_eq!(number(&card(&[1; 1000])), 3);
}

#[test]
fn refusals_in_order() {
    let number =
        |language: &[u8], card: &[u8], root, tree: &[u8]| answer(language, root, card, tree, 0).0;
    let (good, twice) = (card(&[1]), card(&[1, 1]));
    let order = [language(), class(2, 5, 9)].concat();
    let clash = [class(1, 5, 9), language()].concat();
    assert_eq!(number(&[0; 1025], &[], 9, &[]), 1);
    assert_eq!(number(&order, &[], 9, &[]), 2);
    assert_eq!(number(&[0x11], &twice, 9, &[]), 2);
    assert_eq!(number(&clash, &twice, 9, &[]), 3);
    assert_eq!(number(&order, &good, 9, &[]), 3);
    assert_eq!(number(&clash, &good, 9, &[]), 4);
    assert_eq!(number(&language(), &[], 9, &[]), 2);
    assert_eq!(number(&language(), &twice, 9, &[]), 3);
    assert_eq!(number(&language(), &good, 9, &[]), 14);
    assert_eq!(number(&language(), &good, 257, &[]), 14);
    assert_eq!(number(&language(), &good, 1, &[]), 15);
    assert_eq!(number(&language(), &good, 1, &[1; 65]), 16);
    assert_eq!(number(&language(), &good, 1, &TREE), 17);
}

#[test]
fn hidden_blocks_are_checked_too() {
    assert_eq!(seen(&[3, 0, 5, 0, 0, 10, 2, 0, 7, 0, 8], &[1]).0, 15);
    assert_eq!(seen(&[1, 0, 0], &[]).0, 15);
    assert_eq!(seen(&[1; 65], &[]).0, 16);
    assert_eq!(seen(&[2, 0], &[2]).0, 15);
}

/// The masked bytes by the definition.
fn defined(tree: &Tree, kinds: &[u8]) -> Vec<u8> {
    match tree {
        _ if !kinds.contains(&tree.kind()) => vec![0xFF],
        Tree::Token { value, .. } => value.to_be_bytes().to_vec(),
        Tree::Production { name, arguments, .. } => {
            let masked = arguments.iter().map(|tree| defined(tree, kinds));
            [vec![*name], masked.collect::<Vec<_>>().concat()].concat()
        }
    }
}

#[test]
fn masks_are_as_defined_and_reach_every_answer() {
    let (mut random, mut counts) = (Random::new(12), [0; 26]);
    let mut partly = 0;
    for case in 0..20_000 {
        let MaskCase { language, root, card, tree, output } = mask_case(&mut random);
        let (number, found) = answer(&language, root, &card, &tree, output);
        counts[number as usize] += 1;
        if [0, 17].contains(&number) {
            let kinds = fields(&card)[0].1;
            let expected = defined(&Grammar::new(&language).tree(root, &tree), kinds);
            assert_eq!(number == 0, expected.len() <= output, "case {case}");
            assert!(number == 17 || found == expected, "case {case}");
            partly += usize::from(expected.len() > 2 && expected.contains(&0xFF));
        }
        let legal = check_tree(&language, root, &tree).number();
        assert!(number >= legal || [2, 3].contains(&number), "case {case}");
    }
    for (number, &count) in counts.iter().enumerate() {
        let possible = [0, 1, 2, 3, 4, 14, 15, 16, 17].contains(&number);
        assert_eq!(count >= 20, possible, "{number}: {counts:?}");
    }
    assert!(partly > 500, "{partly}");
}

#[test]
fn what_holds_of_masks() {
    let (mut random, mut counts) = (Random::new(13), [0; SAID.len()]);
    let by = |case: &MaskCase| {
        let mut output = vec![0xAB; case.output];
        let MaskCase { language, root, card, tree, .. } = case;
        let outcome = mask(language, *root, card, tree, &mut output);
        (outcome.number(), outcome.length(), output)
    };
    for case in 0..20_000 {
        let said = law_of_masks(&by, &mut random);
        let said = said.unwrap_or_else(|broken| panic!("case {case}: {broken:?}"));
        said.into_iter().for_each(|number| counts[number] += 1);
    }
    assert!(counts.iter().all(|&count| count > 200), "{counts:?}");
}
