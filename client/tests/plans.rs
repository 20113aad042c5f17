//! Loose plans, indexes, edits, masks and searches on the strap: what a call stores when it refuses, and which bytes
//! it leaves alone.

use algebra::{raw, Card, Kind, Language, Refusal, Tree};

/// What fills a buffer before a call.
const MARK: u8 = 0xEE;

/// Minutes of 1 to 240; 1.1 (2), a row, and 1.2 (1 1), a sequence.
const LANGUAGE: [u8; 21] =
    [0x11, 0, 5, 2, 0, 1, 0, 240, 0x12, 0, 3, 1, 1, 2, 0x12, 0, 4, 1, 2, 1, 1];

/// The kind of a block.
const BLOCK: Kind = Kind(1);

/// A row scores its minutes, and a sequence both its blocks.
const TABLE: [u8; 20] = [0x24, 0, 6, 1, 1, 0, 0, 0, 1, 0x24, 0, 8, 1, 2, 0, 0, 0, 1, 0, 1];

#[test]
fn a_refused_loose_plan_scores_0_and_0() {
    let answer = raw::score_loose(&LANGUAGE, 1, &[1, 0, 5, 0, 7], &TABLE);
    assert_eq!(answer, raw::LooseScoreAnswer { number: 0, least: 5, greatest: 7 });
    let answer = raw::score_loose(&LANGUAGE, 1, &[1, 0, 7, 0, 5], &TABLE);
    assert_eq!(answer, raw::LooseScoreAnswer { number: 15, least: 0, greatest: 0 });
}

#[test]
fn the_position_of_an_accepted_tree_is_0() {
    let located = |tree: &[u8], root| raw::locate(&LANGUAGE, root, tree);
    assert_eq!(located(&TREE, 1), raw::LocateAnswer { number: 0, position: 0 });
    assert_eq!(located(&TREE, 9), raw::LocateAnswer { number: 14, position: 0 });
    assert_eq!(located(&[2, 1, 0, 5], 1), raw::LocateAnswer { number: 15, position: 4 });
}

#[test]
fn a_refused_node_has_kind_name_and_arguments_0() {
    let node = |path: &[u8]| raw::node(&LANGUAGE, 1, &TREE, &INDEX, path);
    let answer = |kind, name, arguments| raw::NodeAnswer { number: 0, kind, name, arguments };
    assert_eq!(node(&[]), answer(1, 2, 2));
    assert_eq!(node(&[2]), answer(1, 1, 1));
    assert_eq!(node(&[2, 1]), answer(2, raw::NO_NAME, 0));
    let refused = raw::NodeAnswer { number: 21, kind: 0, name: 0, arguments: 0 };
    assert_eq!(node(&[3]), refused);
}

/// A row of 5 minutes, then one of 7, and its index.
const TREE: [u8; 7] = [2, 1, 0, 5, 1, 0, 7];
const INDEX: [u8; 20] = [0, 0, 0, 7, 0, 1, 0, 3, 0, 2, 0, 2, 0, 4, 0, 3, 0, 5, 0, 2];

/// A card that shows blocks and minutes.
const CARD: [u8; 5] = [0x27, 0, 2, 1, 2];

#[test]
fn an_index_leaves_the_output_alone_behind_it() {
    let mut output = [MARK; 22];
    assert_eq!(algebra::index(Language(&LANGUAGE), BLOCK, Tree(&TREE), &mut output), Ok(20));
    assert_eq!(output, [&INDEX[..], &[MARK; 2]].concat()[..]);
    let mut short = [MARK; 19];
    let refused = algebra::index(Language(&LANGUAGE), BLOCK, Tree(&TREE), &mut short);
    assert_eq!(refused, Err(Refusal::OutputTooShort));
    assert_eq!(short, [MARK; 19]);
}

/// Puts 9 minutes in the place of the 7, in outputs of so many bytes, which are given back.
fn edited(index: &[u8], plan: usize, plan_index: usize) -> (raw::EditAnswer, Vec<u8>, Vec<u8>) {
    let (mut plan, mut plan_index) = (vec![MARK; plan], vec![MARK; plan_index]);
    let answer =
        raw::edit(&LANGUAGE, 1, &TREE, index, &[2, 1], &CARD, &[0, 9], &mut plan, &mut plan_index);
    (answer, plan, plan_index)
}

#[test]
fn an_edit_leaves_both_outputs_alone_behind_its_results() {
    let (answer, plan, index) = edited(&INDEX, 8, 21);
    assert_eq!(answer, raw::EditAnswer { number: 0, plan_length: 7, index_length: 20 });
    assert_eq!(plan, [2, 1, 0, 5, 1, 0, 9, MARK]);
    assert_eq!(index, [&INDEX[..], &[MARK]].concat());
}

#[test]
fn a_refused_edit_leaves_both_outputs_alone() {
    for (index, plan, plan_index, number) in
        [(&INDEX[..], 6, 20, 17), (&INDEX, 7, 19, 17), (&INDEX[..19], 7, 20, 22)]
    {
        let (answer, left, index_left) = edited(index, plan, plan_index);
        assert_eq!(answer, raw::EditAnswer { number, plan_length: 0, index_length: 0 });
        assert!(left.iter().chain(&index_left).all(|&byte| byte == MARK));
    }
}

#[test]
fn a_mask_leaves_the_output_alone_behind_it() {
    let blocks = algebra::card([BLOCK]).expect("a card");
    let mask = |output: &mut [u8]| {
        algebra::mask(Language(&LANGUAGE), BLOCK, Card(&blocks), Tree(&TREE), output)
    };
    let mut output = [MARK; 7];
    assert_eq!(mask(&mut output), Ok(5));
    assert_eq!(output, [2, 1, 0xFF, 1, 0xFF, MARK, MARK]);
    let mut short = [MARK; 4];
    assert_eq!((mask(&mut short), short), (Err(Refusal::OutputTooShort), [MARK; 4]));
}

/// 1.1 (2), a row, stays itself, and 1.4 (1), twice, becomes a sequence with its argument twice.
fn club() -> Vec<u8> {
    let source = [&LANGUAGE[..14], &[0x12, 0, 3, 1, 4, 1]].concat();
    let clauses = [0x23, 0, 6, 1, 1, 1, 1, 3, 1, 0x23, 0, 8, 1, 4, 1, 2, 3, 1, 3, 1];
    let mappings = [0x22, 0, 2, 1, 1, 0x22, 0, 2, 2, 2];
    [&[0x20, 0, 20][..], &source, &[0x21, 0, 21], &LANGUAGE, &mappings, &clauses].concat()
}

#[test]
fn a_search_clears_the_workspace_that_it_used() {
    let (club, twice) = (club(), [2, 1, 0, 5, 1, 0, 5]);
    for length in [0, 1, 31, 32, 224, 1000] {
        let (mut workspace, mut output) = (vec![MARK; length], [MARK; 5]);
        let mut search = |limit| raw::search(&club, 1, &twice, limit, &mut workspace, &mut output);
        assert_eq!(search(17), raw::Answer { number: 24, length: 0 });
        assert_eq!(search(1), raw::Answer { number: 23, length: 0 });
        assert_eq!(search(2), raw::Answer { number: 0, length: 4 });
        assert!(workspace.iter().all(|&byte| byte == 0));
        assert_eq!(output, [4, 1, 0, 5, MARK]);
    }
}

#[test]
fn a_refused_search_leaves_workspace_and_output_alone() {
    let (mut workspace, mut output) = ([MARK; 100], [MARK; 5]);
    for (limit, number) in [(0, 24), (17, 24)] {
        let answer = raw::search(&club(), 1, &[1, 0, 5], limit, &mut workspace, &mut output);
        assert_eq!(answer, raw::Answer { number, length: 0 });
    }
    let answer = raw::search(&club(), 1, &[1, 0, 0], 1, &mut workspace, &mut output);
    assert_eq!(answer, raw::Answer { number: 15, length: 0 });
    assert_eq!((workspace, output), ([MARK; 100], [MARK; 5]));
}
