//! The cost of a run: how many clauses are applied, each use of an argument anew.

mod build;
mod model;

use build::*;
use model::{fields, Grammar, Tree};
use reference::examples::sum;
use reference::generate::{run_case, with_turns, with_twin, Random, RunCase};
use reference::{check_tree, run};
use std::path::Path;

/// Number, length and cost of a run with an output of 5,000 bytes.
fn answer(translation: &[u8], root: u32, number: u32, tree: &[u8]) -> (u32, u64, u32) {
    let found = run(translation, root, number, tree, &mut [0; 5000]);
    (found.number(), found.length(), found.cost)
}

/// Kind 1: a leaf, a pair and a triple; class 2 under 1.3.
fn language() -> Vec<u8> {
    [
        class(2, 1, 9),
        production(1, 0, &[]),
        production(1, 1, &[1, 1]),
        production(1, 2, &[1, 1, 1]),
        production(1, 3, &[2]),
    ]
    .concat()
}

/// The language to itself with codes for the pair and the triple.
fn with_codes(pair: &[u8], triple: &[u8]) -> Vec<u8> {
    let body = [
        mapping(1, 1),
        mapping(2, 2),
        clause(1, 0, &[1, 0]),
        clause(1, 1, pair),
        clause(1, 2, triple),
        clause(1, 3, &[1, 3, 3, 1]),
    ];
    translation(&language(), &language(), &body.concat())
}

const PAIR: [u8; 6] = [1, 1, 3, 1, 3, 2];
const TRIPLE: [u8; 8] = [1, 2, 3, 1, 3, 2, 3, 3];

#[test]
fn each_production_costs_one_by_the_identity_and_a_token_nothing() {
    let same = with_codes(&PAIR, &TRIPLE);
    for (tree, cost) in [
        (vec![0], 1),
        (vec![3, 0, 5], 1),
        (vec![1, 0, 3, 0, 5], 3),
        (vec![2, 0, 1, 0, 0, 1, 0, 3, 0, 5], 8),
    ] {
        assert_eq!(answer(&same, 1, 0, &tree), (0, tree.len() as u64, cost), "{tree:?}");
    }
    assert_eq!(answer(&same, 2, 0, &[0, 5]), (0, 2, 0), "a token alone");
}

#[test]
fn what_is_not_used_costs_nothing() {
    let second = with_codes(&[3, 2], &[1, 0]);
    assert_eq!(answer(&second, 1, 0, &[1, 2, 0, 0, 0, 0]), (0, 1, 2), "a bare argument counts one");
    assert_eq!(answer(&second, 1, 0, &[2, 1, 0, 0, 1, 0, 0, 0]), (0, 1, 1), "a constant");
    assert_eq!(answer(&second, 1, 0, &[1, 0, 1, 0, 1, 0, 0]), (0, 1, 4));
}

#[test]
fn each_use_of_an_argument_counts_anew() {
    let twice = with_codes(&[1, 1, 3, 1, 3, 1], &[1, 2, 3, 1, 3, 1, 3, 1]);
    assert_eq!(answer(&twice, 1, 0, &[1, 0, 0]), (0, 3, 3));
    assert_eq!(answer(&twice, 1, 0, &[1, 1, 0, 0, 0]), (0, 7, 7));
    assert_eq!(answer(&twice, 1, 0, &[2, 2, 0, 0, 0, 0, 0]), (0, 13, 13));
    let chain = [vec![4; 10], vec![1, 0, 5]].concat();
    assert_eq!(answer(&sum(), 1, 0, &chain), (0, 4095, 2047));
}

#[test]
fn clauses_of_every_number_count() {
    let twice = with_codes(&[1, 1, 3, 1, 3, 1], &TRIPLE);
    for number in [1, 16, 255] {
        for value in [with_twin(&twice, number), with_turns(&twice, number)] {
            for by in [0, u32::from(number)] {
                assert_eq!(answer(&value, 1, by, &[1, 2, 0, 0, 3, 0, 1, 0]), (0, 13, 9));
            }
        }
    }
}

#[test]
fn a_list_that_is_translated_twice_costs_twice() {
    let folder = Path::new(env!("CARGO_MANIFEST_DIR")).join("../examples/warm_up");
    let file = |name: &str| std::fs::read(folder.join(name)).expect("a file of the examples");
    let (plan, back) = (file("plan.translation"), file("back.translation"));
    assert_eq!(answer(&plan, 1, 0, &file("session.tree")), (0, 27, 8));
    assert_eq!(answer(&plan, 3, 1, &file("warm_up.tree")), (0, 11, 3));
    assert_eq!(answer(&back, 1, 1, &file("session.tree")), (0, 27, 8), "the join applies as many");
}

/// How many productions are in a tree.
fn productions(tree: &Tree) -> u32 {
    let below: u32 = tree.arguments().iter().map(productions).sum();
    below + u32::from(matches!(tree, Tree::Production { .. }))
}

/// Whether a code of the translation uses an argument twice, by whichever numbers.
fn uses_twice(translation: &[u8]) -> bool {
    let codes = fields(translation).into_iter().filter_map(|(tag, contents)| match tag {
        0x23 => Some(&contents[2..]),
        0x29 => Some(&contents[3..]),
        _ => None,
    });
    codes.into_iter().any(|code| {
        let mut used = arguments(code);
        used.sort_unstable();
        used.windows(2).any(|pair| pair[0] == pair[1])
    })
}

/// The arguments that a code uses, in order.
fn arguments(mut code: &[u8]) -> Vec<u8> {
    let mut used = vec![];
    while !code.is_empty() {
        used.extend(matches!(code[0], 3 | 4).then(|| code[1]));
        code = &code[if matches!(code[0], 2 | 4) { 3 } else { 2 }..];
    }
    used
}

#[test]
fn where_no_argument_is_used_twice_the_cost_is_at_most_the_productions() {
    let mut random = Random::new(2);
    let [mut bounded, mut less, mut numbered, mut above] = [0; 4];
    for case in 0..30_000 {
        let RunCase { translation, root, number, tree, .. } = run_case(&mut random);
        let found = run(&translation, root, number, &tree, &mut [0; 5000]);
        if found.number() != 0 {
            assert_eq!((found.length(), found.cost), (0, 0), "case {case}");
            continue;
        }
        let source = fields(&translation)[0].1;
        assert_eq!(check_tree(source, root, &tree).number(), 0);
        let most = productions(&Grammar::new(source).tree(root, &tree));
        if uses_twice(&translation) {
            above += usize::from(found.cost > most);
            continue;
        }
        assert!(found.cost <= most, "case {case}: {} of {most}", found.cost);
        bounded += 1;
        less += usize::from(found.cost < most);
        numbered += usize::from(fields(&translation).iter().any(|(tag, _)| *tag == 0x28));
    }
    assert!(bounded > 3000 && less > 500 && numbered > 500, "{bounded} {less} {numbered}");
    assert!(above > 50, "{above}");
}

#[test]
fn each_refusal_has_cost_0() {
    let (mut random, mut reached) = (Random::new(3), [0; 18]);
    for _ in 0..20_000 {
        let RunCase { translation, root, number, tree, output } = run_case(&mut random);
        let found = run(&translation, root, number, &tree, &mut vec![0; output]);
        reached[found.number() as usize] += 1;
        assert!(found.number() == 0 || found.cost == 0);
    }
    for number in [1, 2, 3, 4, 5, 6, 7, 14, 15, 16, 17] {
        assert!(reached[number] > 0, "{number}: {reached:?}");
    }
}
