//! Indexes and edits: each refusal, the limits of length and levels, both outputs, and random cases
//! against the definition.

mod build;
mod model;

use build::*;
use model::{own_index, Grammar};
use reference::generate::{edit_case, index_bytes, index_case, EditCase, Random, TreeCase};
use reference::laws::edits::{law_of_edits, Operations, SAID};
use reference::{block, check_tree, edit, index};

/// The most bytes of a tree with an index.
const MOST: usize = 65_535;

/// Class 2; kind 1: a leaf 0, a link 1, 2 with a token, 3 with tokens around, 8 of eight, 9 of two.
fn language() -> Vec<u8> {
    let productions: [(u8, &[u8]); 6] =
        [(0, &[]), (1, &[1]), (2, &[2]), (3, &[2, 1, 2]), (8, &[1; 8]), (9, &[1, 1])];
    let productions = productions.map(|(name, of)| production(1, name, of));
    [vec![class(2, 5, 9)], productions.to_vec()].concat().concat()
}

/// A tree of exactly so many bytes and few levels.
fn tree_of(bytes: usize) -> Vec<u8> {
    match bytes {
        1 => vec![0],
        2..=8 => [vec![1], tree_of(bytes - 1)].concat(),
        _ => {
            let (part, last) = ((bytes - 1) / 8, bytes - 1 - (bytes - 1) / 8 * 7);
            [vec![8], tree_of(part).repeat(7), tree_of(last)].concat()
        }
    }
}

/// The index of a tree of kind 1 and the number, with an output of so many bytes.
fn indexed(tree: &[u8], output: usize) -> (u32, Vec<u8>) {
    let mut bytes = vec![0xEE; output];
    let outcome = index(&language(), 1, tree, &mut bytes);
    let (found, rest) = bytes.split_at(outcome.length() as usize);
    assert!(rest.iter().all(|&byte| byte == 0xEE));
    (outcome.number(), found.to_vec())
}

/// The own index of a tree of kind 1.
fn own(tree: &[u8]) -> Vec<u8> {
    let case = TreeCase { language: language(), root: 1, tree: tree.to_vec() };
    index_bytes(&case)
}

/// An edit with outputs of these lengths, by an index.
fn edit_by(
    index: &[u8],
    tree: &[u8],
    path: &[u8],
    block: &[u8],
    rooms: [usize; 2],
) -> (u32, Vec<u8>, Vec<u8>) {
    let [plan, plan_index] = rooms;
    let (tree, index, path, block) = (tree.to_vec(), index.to_vec(), path.to_vec(), block.to_vec());
    let (language, root, card) = (language(), 1, card(&[1, 2]));
    answer(&EditCase { language, root, tree, index, path, card, block, plan, plan_index })
}

/// An edit by the tree's own index.
fn edited(tree: &[u8], path: &[u8], block: &[u8]) -> (u32, Vec<u8>, Vec<u8>) {
    let room = tree.len() + block.len();
    edit_by(&own(tree), tree, path, block, [room, 4 * room])
}

/// The number of an edit by the tree's own index.
fn number(tree: &[u8], path: &[u8], block: &[u8]) -> u32 {
    edited(tree, path, block).0
}

/// The answer of an edit; what is not written is as it was, and a refusal writes nothing.
fn answer(case: &EditCase) -> (u32, Vec<u8>, Vec<u8>) {
    let (mut plan, mut plan_index) = (vec![0xEE; case.plan], vec![0xDD; case.plan_index]);
    let found = edit(&case.input(), &mut plan, &mut plan_index);
    let (plan, plan_rest) = plan.split_at(found.outcome.length() as usize);
    let (plan_index, index_rest) = plan_index.split_at(found.index_length as usize);
    assert!(plan_rest.iter().all(|&byte| byte == 0xEE));
    assert!(index_rest.iter().all(|&byte| byte == 0xDD));
    let number = found.outcome.number();
    assert!(number == 0 || plan.is_empty() && plan_index.is_empty());
    (number, plan.to_vec(), plan_index.to_vec())
}

/// A tree with tokens, a link and a pair.
const TREE: [u8; 11] = [9, 3, 0, 5, 1, 0, 0, 7, 2, 0, 9];

#[test]
fn an_index_has_start_and_length_of_each_node() {
    let expected = [
        [0, 0, 0, 11],
        [0, 1, 0, 7],
        [0, 2, 0, 2],
        [0, 4, 0, 2],
        [0, 5, 0, 1],
        [0, 6, 0, 2],
        [0, 8, 0, 3],
        [0, 9, 0, 2],
    ];
    assert_eq!(indexed(&TREE, 32), (0, expected.concat()));
    assert_eq!(indexed(&TREE, 40), (0, expected.concat()));
    assert_eq!(indexed(&TREE, 31), (17, vec![]));
    assert_eq!(indexed(&TREE, 0), (17, vec![]));
}

#[test]
fn the_index_of_a_token_alone() {
    let mut output = [0; 4];
    assert_eq!(index(&language(), 2, &[0, 5], &mut output).length(), 4);
    assert_eq!(output, [0, 0, 0, 2]);
}

#[test]
fn refusals_of_an_index_in_order() {
    let number = |language: &[u8], root, tree: &[u8]| index(language, root, tree, &mut []).number();
    assert_eq!(number(&[0; 1025], 9, &[]), 1);
    assert_eq!(number(&[0x11], 9, &[]), 2);
    assert_eq!(number(&[language(), class(2, 5, 9)].concat(), 9, &[]), 3);
    assert_eq!(number(&[class(1, 5, 9), language()].concat(), 9, &[]), 4);
    assert_eq!(number(&language(), 9, &[]), 14);
    assert_eq!(number(&language(), 1, &[]), 15);
    assert_eq!(number(&language(), 1, &[1; 65]), 16);
    let long = tree_of(MOST + 1);
    assert_eq!(number(&language(), 1, &long), 22);
    assert_eq!(number(&language(), 1, &[&long[..], &[0]].concat()), 15);
    assert_eq!(number(&language(), 1, &TREE), 17);
}

#[test]
fn trees_of_the_most_bytes_and_one_more() {
    let tree = tree_of(MOST);
    let (number, found) = indexed(&tree, 4 * MOST);
    assert_eq!((number, found[..4].to_vec()), (0, vec![0, 0, 0xFF, 0xFF]));
    assert_eq!(found, own(&tree));
    let last = &found[found.len() - 4..];
    assert_eq!(last, [0xFF, 0xFE, 0, 1]);
    assert_eq!(indexed(&tree_of(MOST + 1), 5 * MOST), (22, vec![]));
    let case = block(&language(), 1, &tree, &found, &[8]);
    assert_eq!((case.outcome.number(), case.part), (0, &tree[case.start as usize..]));
    let long = tree_of(MOST + 1);
    assert_eq!(block(&language(), 1, &long, &own(&long), &[8]).outcome.number(), 22);
}

#[test]
fn edits_at_each_place() {
    for (path, block, plan) in [
        (&[][..], &[2, 0, 6][..], &[2, 0, 6][..]),
        (&[], &[0], &[0]),
        (&[1], &[0], &[9, 0, 2, 0, 9]),
        (&[2], &[9, 0, 0], &[9, 3, 0, 5, 1, 0, 0, 7, 9, 0, 0]),
        (&[1, 1], &[0, 8], &[9, 3, 0, 8, 1, 0, 0, 7, 2, 0, 9]),
        (&[1, 3], &[0, 8], &[9, 3, 0, 5, 1, 0, 0, 8, 2, 0, 9]),
        (&[1, 2, 1], &[1, 1, 0], &[9, 3, 0, 5, 1, 1, 1, 0, 0, 7, 2, 0, 9]),
        (&[2, 1], &[0, 5], &[9, 3, 0, 5, 1, 0, 0, 7, 2, 0, 5]),
    ] {
        let index = own_index(&Grammar::new(&language()).tree(1, plan));
        assert_eq!(edited(&TREE, path, block), (0, plan.to_vec(), index), "{path:?}");
    }
}

#[test]
fn an_edit_with_what_stands_there_changes_nothing() {
    for (path, start, end) in
        [(&[][..], 0, 11), (&[1], 1, 8), (&[2], 8, 11), (&[1, 3], 6, 8), (&[1, 2, 1], 5, 6)]
    {
        let found = edited(&TREE, path, &TREE[start..end]);
        assert_eq!(found, (0, TREE.to_vec(), own(&TREE)), "{path:?}");
    }
}

#[test]
fn blocks_that_are_not_of_the_kind() {
    for block in [&[][..], &[7], &[0, 0], &[2, 0], &[2, 0, 10], &[2, 0, 4], &[2, 0, 5, 0], &[9, 0]]
    {
        assert_eq!(number(&TREE, &[2], block), 15, "{block:?}");
        assert_eq!(number(&TREE, &[], block), 15, "{block:?}");
    }
    for block in [&[][..], &[0], &[0, 4], &[0, 10], &[0, 5, 0], &[2, 0, 5]] {
        assert_eq!(number(&TREE, &[2, 1], block), 15, "{block:?}");
    }
}

#[test]
fn paths_that_lead_nowhere_come_before_the_block() {
    for path in [&[0][..], &[3], &[1, 1, 1], &[1, 0], &[2, 2], &[255], &[1, 2, 1, 1]] {
        assert_eq!(number(&TREE, path, &[7]), 21, "{path:?}");
    }
}

#[test]
fn levels_count_in_the_whole_plan() {
    let deep = |links: usize, end: &[u8]| [&vec![1; links][..], end].concat();
    let tree = deep(63, &[0]);
    assert_eq!(number(&tree, &[1; 63], &[2, 0, 5]), 0);
    assert_eq!(number(&tree, &[1; 63], &[1, 0]), 16);
    assert_eq!(number(&tree, &[1; 63], &[1]), 16);
    assert_eq!(number(&tree, &[1; 63], &[9]), 16);
    assert_eq!(number(&tree, &[1; 63], &[7]), 15);
    assert_eq!(number(&tree, &[1; 63], &[]), 15);
    assert_eq!(number(&tree, &[1; 64], &[0]), 21);
    assert_eq!(number(&deep(63, &[2, 0, 5]), &[1; 64], &[0, 9]), 0);
    for level in 0..64 {
        let path = vec![1; level];
        assert_eq!(number(&tree, &path, &deep(63 - level, &[0])), 0, "level {level}");
        assert_eq!(number(&tree, &path, &deep(64 - level, &[0])), 16, "level {level}");
        assert_eq!(number(&tree, &path, &deep(64 - level, &[])), 16, "level {level}");
        assert_eq!(number(&tree, &path, &deep(63 - level, &[])), 15, "level {level}");
    }
}

#[test]
fn fifteen_and_sixteen_of_a_block_in_reading_order() {
    let links = [1; 70];
    assert_eq!(number(&[0], &[], &[&[9, 7][..], &links].concat()), 15);
    assert_eq!(number(&[0], &[], &[&[9][..], &links, &[7]].concat()), 16);
    assert_eq!(number(&[0], &[], &[&[9, 0, 0][..], &links].concat()), 15);
}

#[test]
fn a_new_plan_of_the_most_bytes_and_one_more() {
    let tree = [vec![9], tree_of(30_000), tree_of(20_000)].concat();
    let exact = MOST - 1 - 30_000;
    assert_eq!(number(&tree, &[2], &tree_of(exact)), 0);
    assert_eq!(number(&tree, &[2], &tree_of(exact + 1)), 22);
    assert_eq!(number(&tree, &[], &tree_of(MOST)), 0);
    assert_eq!(number(&tree, &[], &tree_of(MOST + 1)), 22);
    assert_eq!(number(&tree, &[2], &[tree_of(exact + 1), vec![0]].concat()), 15);
    let none = |block: &[u8]| edit_by(&own(&tree), &tree, &[2], block, [0, 0]).0;
    assert_eq!(none(&tree_of(exact + 1)), 22);
    assert_eq!(none(&tree_of(exact)), 17);
}

#[test]
fn either_output_too_short_is_17_and_last() {
    let rooms = |plan, index| edit_by(&own(&TREE), &TREE, &[1], &[1, 0], [plan, index]).0;
    assert_eq!(rooms(6, 20), 0);
    assert_eq!(rooms(5, 20), 17);
    assert_eq!(rooms(6, 19), 17);
    assert_eq!(rooms(5, 19), 17);
    assert_eq!(rooms(0, 0), 17);
    assert_eq!(edit_by(&own(&TREE), &TREE, &[1], &[7], [0, 0]).0, 15);
    assert_eq!(edit_by(&own(&TREE), &TREE, &[3], &[7], [0, 0]).0, 21);
    assert_eq!(edit_by(&own(&TREE)[1..], &TREE, &[3], &[7], [0, 0]).0, 22);
}

#[test]
fn refusals_of_an_edit_in_order() {
    let case = |language: Vec<u8>, root, tree: &[u8], index: &[u8]| {
        let (tree, index, path, card) = (tree.to_vec(), index.to_vec(), vec![9], card(&[1]));
        let (block, plan, plan_index) = (vec![7], 9, 9);
        answer(&EditCase { language, root, tree, index, path, card, block, plan, plan_index }).0
    };
    assert_eq!(case(vec![0; 1025], 9, &[], &[]), 1);
    assert_eq!(case(vec![0x11], 9, &[], &[]), 2);
    assert_eq!(case([language(), class(2, 5, 9)].concat(), 9, &[], &[]), 3);
    assert_eq!(case([class(1, 5, 9), language()].concat(), 9, &[], &[]), 4);
    assert_eq!(case(language(), 9, &[], &[]), 14);
    assert_eq!(case(language(), 1, &[], &[]), 15);
    assert_eq!(case(language(), 1, &[1; 65], &[]), 16);
    assert_eq!(case(language(), 1, &TREE, &[]), 22);
    let long = tree_of(MOST + 1);
    assert_eq!(case(language(), 1, &long, &own(&long)), 22);
    assert_eq!(case(language(), 1, &TREE, &own(&TREE)), 21);
}

/// The number of an edit of the tree at a path by a card.
fn seen_by(card: &[u8], path: &[u8]) -> u32 {
    let (language, root, tree, index) = (language(), 1, TREE.to_vec(), own(&TREE));
    let (path, card, block, plan, plan_index) = (path.to_vec(), card.to_vec(), vec![7], 0, 0);
    answer(&EditCase { language, root, tree, index, path, card, block, plan, plan_index }).0
}

#[test]
fn a_hidden_block_is_25_before_the_next_number() {
    let blocks = card(&[1]);
    assert_eq!(seen_by(&blocks, &[1, 1]), 25);
    assert_eq!(seen_by(&blocks, &[1, 1, 0]), 25);
    assert_eq!(seen_by(&blocks, &[1, 1, 1, 1]), 25);
    assert_eq!(seen_by(&blocks, &[2, 1]), 25);
    assert_eq!(seen_by(&blocks, &[1, 0]), 21);
    assert_eq!(seen_by(&blocks, &[1, 4]), 21);
    assert_eq!(seen_by(&blocks, &[3]), 21);
    assert_eq!(seen_by(&blocks, &[1, 2]), 15);
    for path in [&[][..], &[0], &[3], &[1], &[1, 1]] {
        assert_eq!(seen_by(&card(&[2]), path), 25, "{path:?}");
        assert_eq!(seen_by(&card(&[]), path), 25, "{path:?}");
    }
    assert_eq!(seen_by(&card(&[0, 1, 2, 31]), &[1, 1]), 15);
}

#[test]
fn card_and_language_give_the_lowest_refusal() {
    let number = |language: Vec<u8>, card: &[u8]| {
        let (root, tree, index, path) = (9, vec![], vec![], vec![]);
        let (card, block, plan, plan_index) = (card.to_vec(), vec![], 0, 0);
        answer(&EditCase { language, root, tree, index, path, card, block, plan, plan_index }).0
    };
    let order = [language(), class(2, 5, 9)].concat();
    let clash = [class(1, 5, 9), language()].concat();
    assert_eq!(number(vec![0; 1025], &[]), 1);
    assert_eq!(number(order.clone(), &[]), 2);
    assert_eq!(number(clash.clone(), &[]), 2);
    assert_eq!(number(language(), &[]), 2);
    assert_eq!(number(clash.clone(), &card(&[2, 1])), 3);
    assert_eq!(number(vec![0x11], &card(&[2, 1])), 2);
    assert_eq!(number(language(), &card(&[2, 1])), 3);
    assert_eq!(number(language(), &card(&[1, 1])), 3);
    assert_eq!(number(clash, &card(&[1])), 4);
    assert_eq!(number(language(), &card(&[1])), 14);
}

/// The number of indexes and edits for so many cases.
fn count(cases: usize, mut next: impl FnMut() -> u32) -> [usize; 26] {
    let mut counts = [0; 26];
    (0..cases).for_each(|_| counts[next() as usize] += 1);
    counts
}

/// Exactly these numbers are reached, each a few times.
fn assert_reached(counts: [usize; 26], possible: &[usize]) {
    for (number, &count) in counts.iter().enumerate() {
        assert_eq!(count >= 20, possible.contains(&number), "{number}: {counts:?}");
    }
}

#[test]
fn indexes_are_as_defined_and_reach_every_answer() {
    let mut random = Random::new(8);
    let counts = count(20_000, || {
        let case = index_case(&mut random);
        let mut output = vec![0xEE; case.output];
        let outcome = index(&case.language, case.root, &case.tree, &mut output);
        let legal = check_tree(&case.language, case.root, &case.tree).number();
        if outcome.number() == 0 {
            let tree = Grammar::new(&case.language).tree(case.root, &case.tree);
            assert_eq!(output[..outcome.length() as usize], own_index(&tree));
        }
        assert!(legal == 0 || legal == outcome.number());
        outcome.number()
    });
    assert_reached(counts, &[0, 1, 2, 3, 4, 14, 15, 16, 17, 22]);
}

#[test]
fn edits_are_as_defined_and_reach_every_answer() {
    let mut random = Random::new(9);
    let counts = count(20_000, || {
        let case = edit_case(&mut random);
        let (number, plan, index) = answer(&case);
        if number == 0 {
            let tree = Grammar::new(&case.language).tree(case.root, &plan);
            assert_eq!(index, own_index(&tree));
            assert_eq!(check_tree(&case.language, case.root, &plan).number(), 0);
        }
        number
    });
    assert_reached(counts, &[0, 1, 2, 3, 4, 14, 15, 16, 17, 21, 22, 25]);
}

/// Number and index of a tree.
fn index_number(language: &[u8], root: u32, tree: &[u8]) -> (u32, Vec<u8>) {
    let mut output = vec![0; 4 * tree.len()];
    let outcome = index(language, root, tree, &mut output);
    output.truncate(outcome.length() as usize);
    (outcome.number(), output)
}

/// Number, start, length and kind of a block.
fn block_figures(language: &[u8], root: u32, parts: [&[u8]; 3]) -> (u32, u64, u64, u32) {
    let [tree, index, path] = parts;
    let found = block(language, root, tree, index, path);
    (found.outcome.number(), found.start, found.outcome.length(), found.kind)
}

/// Number, plan and index of an edit with outputs that are long enough.
fn long_edit(case: &EditCase) -> (u32, Vec<u8>, Vec<u8>) {
    let (plan, plan_index) = case.room();
    answer(&EditCase { plan, plan_index, ..case.clone() })
}

#[test]
fn what_holds_of_edits() {
    let (mut random, mut counts) = (Random::new(10), [0; SAID.len()]);
    let operations = Operations { index: &index_number, block: &block_figures, edit: &long_edit };
    for case in 0..10_000 {
        let said = law_of_edits(&operations, &mut random);
        let said = said.unwrap_or_else(|broken| panic!("case {case}: {}", broken.what));
        said.into_iter().for_each(|number| counts[number] += 1);
    }
    assert!(counts.iter().all(|&count| count > 100), "{counts:?}");
}
