//! Searches: each refusal, clauses that use an argument alone, twice or never, limits, and random
//! cases against an enumeration of all source trees.

mod build;

use build::*;
use reference::enumeration::{first_source, source_trees};
use reference::generate::{search_case, small_search_case, Random, SearchCase};
use reference::laws::search::{law_of_searches, Operations, SAID};
use reference::{check_translation, run, search};

/// Number and result of a search; output and workspace are left as they should be.
fn answer(
    translation: &[u8],
    root: u32,
    tree: &[u8],
    limit: u32,
    [workspace, room]: [usize; 2],
) -> (u32, Vec<u8>) {
    let (mut workspace, mut output) = (vec![0xAA; workspace], vec![0xEE; room]);
    let outcome = search(translation, root, tree, limit, &mut workspace, &mut output);
    let (number, length) = (outcome.number(), outcome.length() as usize);
    let left = if [0, 17, 23].contains(&number) { 0 } else { 0xAA };
    assert!(workspace.iter().all(|&byte| byte == left));
    assert!(output[length..].iter().all(|&byte| byte == 0xEE));
    assert!(number == 0 || length == 0);
    output.truncate(length);
    (number, output)
}

/// A search from kind 1 with some workspace and an output that is long enough.
fn found(translation: &[u8], tree: &[u8], limit: u32) -> (u32, Vec<u8>) {
    assert_eq!(check_translation(translation).number(), 0);
    answer(translation, 1, tree, limit, [50, 100_000])
}

/// The target: class 2 of 0 to 9; kind 1: a leaf 0, a link 1, a pair 2, and 3 with a token.
fn target() -> Vec<u8> {
    [
        class(2, 0, 9),
        production(1, 0, &[]),
        production(1, 1, &[1]),
        production(1, 2, &[1, 1]),
        production(1, 3, &[2]),
    ]
    .concat()
}

/// A translation into the target: productions of a source, by rising key, each with its code.
fn into_target(classes: &[u8], clauses: &[(u8, u8, &[u8], &[u8])], kinds: &[(u8, u8)]) -> Vec<u8> {
    let productions = clauses.iter().map(|(result, name, of, _)| production(*result, *name, of));
    let source = [classes.to_vec(), productions.collect::<Vec<_>>().concat()].concat();
    let mappings = kinds.iter().map(|&(from, to)| mapping(from, to));
    let codes = clauses.iter().map(|(result, name, _, code)| clause(*result, *name, code));
    let body: Vec<Vec<u8>> = mappings.chain(codes).collect();
    translation(&source, &target(), &body.concat())
}

/// The codes of a leaf, a link and a pair of arguments, and a pair of one argument twice.
const LEAF: &[u8] = &[1, 0];
const LINK: &[u8] = &[1, 1, 3, 1];
const PAIR: &[u8] = &[1, 2, 3, 1, 3, 2];
const TWICE: &[u8] = &[1, 2, 3, 1, 3, 1];
/// The answer where a translation has other numbers than 0.
const OTHER_NUMBERS: u32 = 26;
/// A code that is its first argument.
const BARE: &[u8] = &[3, 1];

#[test]
fn an_identity_finds_the_tree_itself() {
    let clauses: [(u8, u8, &[u8], &[u8]); 4] =
        [(1, 0, &[], LEAF), (1, 1, &[1], LINK), (1, 2, &[1, 1], PAIR), (1, 3, &[2], &[1, 3, 3, 1])];
    let identity = into_target(&class(2, 0, 9), &clauses, &[(1, 1), (2, 2)]);
    let tree = [2, 1, 3, 0, 9, 0];
    assert_eq!(found(&identity, &tree, 16), (0, tree.to_vec()));
    assert_eq!(found(&identity, &tree, 3), (0, tree.to_vec()));
    assert_eq!(found(&identity, &tree, 2).0, 23);
    let token = |value, limit| answer(&identity, 2, &[0, value], limit, [0, 2]);
    assert_eq!(token(9, 1), (0, vec![0, 9]));
    assert_eq!(token(10, 1).0, 15);
}

#[test]
fn levels_are_those_of_the_source() {
    let chain: [(u8, u8, &[u8], &[u8]); 2] = [(1, 4, &[1], LINK), (1, 5, &[], LEAF)];
    let chain = into_target(&[], &chain, &[(1, 1)]);
    let links = |count: usize| [vec![1; count], vec![0]].concat();
    assert_eq!(found(&chain, &links(15), 16), (0, [vec![4; 15], vec![5]].concat()));
    assert_eq!(found(&chain, &links(16), 16).0, 23);
    assert_eq!(found(&chain, &links(0), 1), (0, vec![5]));
    assert_eq!(found(&chain, &links(1), 1).0, 23);
    assert_eq!(found(&chain, &links(63), 16).0, 23);
    assert_eq!(found(&chain, &links(64), 16).0, 16);
    let fast: [(u8, u8, &[u8], &[u8]); 2] =
        [(1, 4, &[1], &[1, 1, 1, 1, 1, 1, 1, 1, 3, 1]), (1, 5, &[], LEAF)];
    let fast = into_target(&[], &fast, &[(1, 1)]);
    assert_eq!(found(&fast, &links(60), 16), (0, [vec![4; 15], vec![5]].concat()));
    assert_eq!(found(&fast, &links(62), 16).0, 23);
}

#[test]
fn a_token_is_no_level() {
    let clauses: [(u8, u8, &[u8], &[u8]); 1] = [(1, 7, &[4], &[1, 3, 3, 1])];
    let narrow = into_target(&class(4, 3, 5), &clauses, &[(1, 1), (4, 2)]);
    assert_eq!(found(&narrow, &[3, 0, 4], 1), (0, vec![7, 0, 4]));
    assert_eq!(found(&narrow, &[3, 0, 6], 1).0, 23);
    assert_eq!(found(&narrow, &[3, 0, 2], 16).0, 23);
    assert_eq!(answer(&narrow, 4, &[0, 5], 1, [0, 9]), (0, vec![0, 5]));
    assert_eq!(answer(&narrow, 4, &[0, 6], 1, [0, 9]).0, 23);
}

#[test]
fn constant_codes() {
    let clauses: [(u8, u8, &[u8], &[u8]); 2] =
        [(1, 7, &[], &[1, 3, 2, 0, 5]), (3, 1, &[], &[2, 0, 6])];
    let constant = into_target(&[], &clauses, &[(1, 1), (3, 2)]);
    assert_eq!(found(&constant, &[3, 0, 5], 1), (0, vec![7]));
    assert_eq!(found(&constant, &[3, 0, 6], 1).0, 23);
    assert_eq!(answer(&constant, 3, &[0, 6], 1, [0, 9]), (0, vec![1]));
    assert_eq!(answer(&constant, 3, &[0, 5], 1, [0, 9]).0, 23);
}

#[test]
fn bare_arguments_stay_at_the_node() {
    let clauses: [(u8, u8, &[u8], &[u8]); 3] =
        [(1, 0, &[1], BARE), (1, 1, &[3], BARE), (3, 5, &[], LEAF)];
    let bare = into_target(&[], &clauses, &[(1, 1), (3, 1)]);
    assert_eq!(found(&bare, &[0], 1).0, 23);
    assert_eq!(found(&bare, &[0], 2), (0, vec![1, 5]));
    assert_eq!(found(&bare, &[0], 3), (0, vec![0, 1, 5]));
    assert_eq!(found(&bare, &[0], 16), (0, [vec![0; 14], vec![1, 5]].concat()));
    assert_eq!(found(&bare, &[1, 0], 16).0, 23);
}

#[test]
fn cycles_of_bare_arguments_that_no_plan_satisfies() {
    let kinds = [1, 3, 4, 5];
    let mut clauses: Vec<(u8, u8, &[u8], &[u8])> = Vec::new();
    for kind in kinds {
        for (name, argument) in (0..).zip([&[1u8][..], &[3], &[4], &[5]]) {
            clauses.push((kind, name, argument, BARE));
        }
    }
    let cycles = into_target(&[], &clauses, &kinds.map(|kind| (kind, 1)));
    for limit in [1, 2, 15, 16] {
        assert_eq!(found(&cycles, &[0], limit).0, 23);
        assert_eq!(found(&cycles, &[2, 0, 0], limit).0, 23);
    }
}

#[test]
fn an_argument_used_twice_needs_equal_blocks() {
    let clauses: [(u8, u8, &[u8], &[u8]); 3] =
        [(1, 3, &[1], LINK), (1, 4, &[1], TWICE), (1, 5, &[], LEAF)];
    let twice = into_target(&[], &clauses, &[(1, 1)]);
    assert_eq!(found(&twice, &[2, 0, 0], 2), (0, vec![4, 5]));
    assert_eq!(found(&twice, &[2, 1, 0, 1, 0], 3), (0, vec![4, 3, 5]));
    assert_eq!(found(&twice, &[2, 1, 0, 0], 16).0, 23);
    assert_eq!(found(&twice, &[2, 0, 1, 0], 16).0, 23);
    let doubled = (0..15).fold(vec![0], |below, _| [&[2][..], &below, &below].concat());
    assert_eq!(found(&twice, &doubled, 16), (0, [vec![4; 15], vec![5]].concat()));
    let mut other = doubled.clone();
    *other.last_mut().expect("a byte") = 3;
    assert_eq!(found(&twice, &[&other[..], &[0, 5]].concat(), 16).0, 23);
}

#[test]
fn dropped_arguments_take_their_first_tree_within_the_levels_left() {
    let clauses: [(u8, u8, &[u8], &[u8]); 4] =
        [(1, 4, &[3, 1], &[1, 1, 3, 2]), (1, 5, &[], LEAF), (3, 0, &[3], LEAF), (3, 1, &[], LEAF)];
    let drops = into_target(&[], &clauses, &[(1, 1), (3, 1)]);
    assert_eq!(found(&drops, &[0], 1), (0, vec![5]));
    assert_eq!(found(&drops, &[1, 0], 1).0, 23);
    assert_eq!(found(&drops, &[1, 0], 2), (0, vec![4, 1, 5]));
    assert_eq!(found(&drops, &[1, 0], 3), (0, vec![4, 0, 1, 5]));
    assert_eq!(found(&drops, &[1, 1, 0], 4), (0, vec![4, 0, 0, 1, 4, 0, 1, 5]));
    let long = [vec![4], vec![0; 14], vec![1, 5]].concat();
    assert_eq!(found(&drops, &[1, 0], 16), (0, long));
}

#[test]
fn dropped_tokens_and_kinds_without_a_tree() {
    let clauses: [(u8, u8, &[u8], &[u8]); 3] =
        [(1, 4, &[9], LEAF), (1, 5, &[6, 6], LEAF), (1, 6, &[], LEAF)];
    let classes = stepped_class(6, 7, 9, 2);
    let drops = into_target(&classes, &clauses, &[(1, 1), (6, 2), (9, 1)]);
    assert_eq!(check_translation(&drops).number(), 0);
    assert_eq!(found(&drops, &[0], 1), (0, vec![5, 0, 7, 0, 7]));
}

#[test]
fn an_undefined_source_kind_is_23() {
    let clauses: [(u8, u8, &[u8], &[u8]); 2] = [(1, 4, &[9], LEAF), (1, 6, &[], LEAF)];
    let undefined = into_target(&[], &clauses, &[(1, 1), (9, 1)]);
    let by = |tree: &[u8], limit| answer(&undefined, 9, tree, limit, [10, 10]).0;
    assert_eq!(by(&[0], 16), 23);
    assert_eq!(by(&[7], 16), 15);
    assert_eq!(by(&[0], 17), 24);
    assert_eq!(answer(&undefined, 8, &[0], 16, [10, 10]).0, 14);
}

#[test]
fn the_first_in_byte_order_among_several() {
    let clauses: [(u8, u8, &[u8], &[u8]); 5] = [
        (1, 2, &[1, 1], PAIR),
        (1, 3, &[1], TWICE),
        (1, 7, &[], LEAF),
        (1, 8, &[], LEAF),
        (1, 255, &[], &[1, 1, 1, 0]),
    ];
    let several = into_target(&[], &clauses, &[(1, 1)]);
    assert_eq!(found(&several, &[0], 1), (0, vec![7]));
    assert_eq!(found(&several, &[2, 0, 0], 2), (0, vec![2, 7, 7]));
    assert_eq!(found(&several, &[1, 0], 2), (0, vec![255]));
}

#[test]
fn a_first_name_that_needs_too_many_levels_is_passed_over() {
    let clauses: [(u8, u8, &[u8], &[u8]); 3] =
        [(1, 0, &[3], BARE), (1, 9, &[], LEAF), (3, 0, &[], LEAF)];
    let either = into_target(&[], &clauses, &[(1, 1), (3, 1)]);
    assert_eq!(found(&either, &[0], 1), (0, vec![9]));
    assert_eq!(found(&either, &[0], 2), (0, vec![0, 0]));
}

/// Drops eight arguments whose first trees are as wide and deep as can be.
fn endless() -> Vec<u8> {
    let clauses: [(u8, u8, &[u8], &[u8]); 4] = [
        (1, 4, &[3; 8], LEAF),
        (1, 5, &[], &[1, 1, 1, 0]),
        (3, 0, &[3; 8], LEAF),
        (3, 1, &[], LEAF),
    ];
    into_target(&[], &clauses, &[(1, 1), (3, 1)])
}

#[test]
fn what_is_too_long_for_the_output_is_17() {
    let by = |limit, room| answer(&endless(), 1, &[0], limit, [0, room]);
    assert_eq!(by(16, 1_000_000).0, 17);
    assert_eq!(by(2, 9), (0, [vec![4], vec![1; 8]].concat()));
    assert_eq!(by(2, 8).0, 17);
    assert_eq!(by(3, 73).0, 0);
    assert_eq!(by(3, 72).0, 17);
    assert_eq!(by(1, 100).0, 23);
    assert_eq!(answer(&endless(), 1, &[1, 0], 16, [0, 1]), (0, vec![5]));
    assert_eq!(answer(&endless(), 1, &[1, 0], 16, [0, 0]).0, 17);
}

#[test]
fn refusals_in_order() {
    let clauses: [(u8, u8, &[u8], &[u8]); 1] = [(1, 5, &[], LEAF)];
    let good = into_target(&[], &clauses, &[(1, 1)]);
    let by = |file: &[u8], root, tree: &[u8], limit| answer(file, root, tree, limit, [9, 0]).0;
    let source = production(1, 5, &[]);
    let body = [mapping(1, 1), clause(1, 5, LEAF)].concat();
    let clash = [class(1, 0, 1), source.clone()].concat();
    assert_eq!(by(&[0; 4097], 9, &[], 0), 1);
    assert_eq!(by(&[], 9, &[], 0), 2);
    assert_eq!(by(&[good.clone(), clause(1, 5, LEAF)].concat(), 9, &[], 0), 3);
    assert_eq!(by(&translation(&clash, &target(), &body), 9, &[], 0), 4);
    assert_eq!(by(&translation(&source, &target(), &clause(1, 5, LEAF)), 9, &[], 0), 5);
    assert_eq!(by(&translation(&source, &target(), &mapping(1, 1)), 9, &[], 0), 6);
    let wrong = [mapping(1, 1), clause(1, 5, &[1, 9])].concat();
    assert_eq!(by(&translation(&source, &target(), &wrong), 9, &[], 0), 7);
    assert_eq!(by(&good, 9, &[], 0), 14);
    assert_eq!(by(&good, 257, &[], 0), 14);
    assert_eq!(by(&good, 1, &[], 0), 15);
    assert_eq!(by(&good, 1, &[0, 0], 0), 15);
    assert_eq!(by(&good, 1, &[1; 65], 0), 16);
    for limit in [0, 17, 18, 256 + 16, u32::MAX] {
        assert_eq!(by(&good, 1, &[1, 0], limit), 24, "{limit}");
    }
    assert_eq!(by(&good, 1, &[1, 0], 16), 23);
    assert_eq!(by(&good, 1, &[0], 1), 17);
}

#[test]
fn any_workspace_gives_the_same_answer() {
    for workspace in [0, 1, 2, 31, 32, 33, 1000] {
        assert_eq!(answer(&endless(), 1, &[0], 3, [workspace, 73]).1.len(), 73);
        assert_eq!(answer(&endless(), 1, &[2, 0, 0], 16, [workspace, 73]).0, 23);
    }
}

#[test]
fn enumerations_are_in_byte_order_and_run_as_they_say() {
    let mut random = Random::new(90);
    let mut trees = 0;
    for case in 0..2000 {
        let input = small_search_case(&mut random);
        let SearchCase { translation, root, .. } = &input;
        if *root > 31 || check_translation(translation).number() != 0 {
            continue;
        }
        if answer(translation, *root, &[], 1, [0, 0]).0 == OTHER_NUMBERS {
            continue;
        }
        let Some(list) = source_trees(translation, *root, 3, 60, 200) else { continue };
        assert!(list.windows(2).all(|pair| pair[0].tree < pair[1].tree), "case {case}");
        for listed in &list {
            let mut output = vec![0; 60];
            let outcome = run(translation, *root, 0, &listed.tree, &mut output);
            let result = (outcome.number() == 0).then(|| &output[..outcome.length() as usize]);
            assert_eq!(result, listed.run.as_deref(), "case {case}: {listed:?}");
        }
        trees += list.len();
    }
    assert!(trees > 10_000, "{trees}");
}

#[test]
fn searches_find_what_an_enumeration_finds_first() {
    let (mut random, mut counts) = (Random::new(91), [0; 3]);
    for case in 0..12_000 {
        let input = small_search_case(&mut random);
        let SearchCase { translation, root, tree, limit, .. } = &input;
        let (number, bytes) = answer(translation, *root, tree, *limit, [input.workspace, 3000]);
        if ![0, 17, 23].contains(&number) {
            continue;
        }
        match first_source(translation, *root, tree, *limit, 3000) {
            Some(Some(first)) if first.len() > 3000 => assert_eq!(number, 17),
            Some(Some(first)) => {
                assert_eq!((number, bytes), (0, first), "case {case}: {input:?}");
                counts[0] += 1;
            }
            Some(None) => {
                assert_eq!(number, 23, "case {case}: {input:?}");
                counts[1] += 1;
            }
            None => counts[2] += 1,
        }
    }
    assert!(counts.iter().all(|&count| count > 500), "{counts:?}");
}

#[test]
fn a_translation_with_other_numbers_is_refused_before_the_root() {
    let language = production(1, 0, &[]);
    let body = [
        mapping(1, 1),
        numbered_mapping(1, 1, 1),
        clause(1, 0, &[1, 0]),
        numbered_clause(1, 0, 1, &[1, 0]),
    ];
    let numbered = translation(&language, &language, &body.concat());
    for (root, tree, limit) in [(1, &[0][..], 1), (9, &[0], 1), (1, &[7], 1), (1, &[0], 0)] {
        assert_eq!(answer(&numbered, root, tree, limit, [0, 9]).0, 26);
    }
}

#[test]
fn searches_reach_every_answer() {
    let (mut random, mut counts) = (Random::new(92), [0; 27]);
    for _ in 0..20_000 {
        let SearchCase { translation, root, tree, limit, workspace, output } =
            search_case(&mut random);
        let (number, _) = answer(&translation, root, &tree, limit, [workspace, output]);
        counts[number as usize] += 1;
    }
    for (number, &count) in counts.iter().enumerate() {
        let possible = [0, 1, 2, 3, 4, 5, 6, 7, 14, 15, 16, 17, 23, 24, 26].contains(&number);
        assert_eq!(count >= 10, possible, "{number}: {counts:?}");
    }
}

/// Number, result and workspace of a search.
fn searched(case: &SearchCase, mut workspace: Vec<u8>, room: usize) -> (u32, Vec<u8>, Vec<u8>) {
    let mut output = vec![0; room];
    let SearchCase { translation, root, tree, limit, .. } = case;
    let outcome = search(translation, *root, tree, *limit, &mut workspace, &mut output);
    output.truncate(outcome.length() as usize);
    (outcome.number(), output, workspace)
}

/// Number and result of a run.
fn ran(translation: &[u8], root: u32, tree: &[u8], room: usize) -> (u32, Vec<u8>) {
    let mut output = vec![0; room];
    let outcome = run(translation, root, 0, tree, &mut output);
    output.truncate(outcome.length() as usize);
    (outcome.number(), output)
}

#[test]
fn what_holds_of_searches() {
    let (mut random, mut counts) = (Random::new(93), [0; SAID.len()]);
    let operations = Operations { search: &searched, run: &ran };
    for case in 0..8000 {
        let said = law_of_searches(&operations, &mut random);
        let said = said.unwrap_or_else(|broken| panic!("case {case}: {broken:?}"));
        said.into_iter().for_each(|number| counts[number] += 1);
    }
    assert!(counts.iter().all(|&count| count > 20), "{counts:?}");
}
