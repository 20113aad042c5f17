//! The generators: each answer is reached, and what the operations accept holds together.

mod build;

use build::reduce_answer;
use reference::generate::{
    language_file, long_run_case, reduce_case, run_case, translation_file, tree_case, Random,
    RunCase, LONG_TREE,
};
use reference::{check_language, check_translation, check_tree, reduce, run};

/// How often each number was answered.
type Counts = [usize; 27];

/// Answers so many cases and counts the numbers.
fn count(cases: usize, seed: u64, mut answer: impl FnMut(&mut Random) -> u32) -> Counts {
    let mut random = Random::new(seed);
    let mut counts = [0; 27];
    for _ in 0..cases {
        counts[answer(&mut random) as usize] += 1;
    }
    counts
}

/// Exactly these numbers are answered, each at least a few times.
fn assert_reached(counts: Counts, possible: &[usize]) {
    for (number, &reached) in counts.iter().enumerate() {
        if possible.contains(&number) {
            assert!(reached >= 20, "{number} was answered {reached} times: {counts:?}");
        } else {
            assert_eq!(reached, 0, "{number} is not possible");
        }
    }
}

#[test]
fn languages_reach_every_answer() {
    let counts = count(10_000, 1, |random| check_language(&language_file(random)).number());
    assert_reached(counts, &[0, 1, 2, 3, 4]);
}

#[test]
fn trees_reach_every_answer() {
    let counts = count(10_000, 2, |random| {
        let case = tree_case(random);
        check_tree(&case.language, case.root, &case.tree).number()
    });
    assert_reached(counts, &[0, 1, 2, 3, 4, 14, 15, 16]);
}

#[test]
fn translations_reach_every_answer() {
    let counts = count(10_000, 3, |random| check_translation(&translation_file(random)).number());
    assert_reached(counts, &[0, 1, 2, 3, 4, 5, 6, 7]);
}

#[test]
fn runs_reach_every_answer() {
    let counts = count(20_000, 4, |random| {
        let case = run_case(random);
        let mut output = vec![0xD5; case.output];
        let outcome = run(&case.translation, case.root, case.number, &case.tree, &mut output);
        let rest = &output[outcome.length() as usize..];
        assert!(rest.iter().all(|&byte| byte == 0xD5));
        outcome.number()
    });
    assert_reached(counts, &[0, 1, 2, 3, 4, 5, 6, 7, 14, 15, 16, 17]);
}

#[test]
fn long_runs_reach_every_answer_of_a_tree() {
    let counts = count(1000, 8, |random| {
        let case = long_run_case(random).case;
        assert!((LONG_TREE..=201_000).contains(&case.tree.len()), "{} bytes", case.tree.len());
        assert_eq!(check_translation(&case.translation).number(), 0);
        let RunCase { translation, root, number, tree, output } = case;
        run(&translation, root, number, &tree, &mut vec![0; output]).number()
    });
    assert_reached(counts, &[0, 15, 16, 17]);
}

#[test]
fn long_trees_have_subtrees_about_4096_bytes_and_all_numbers_of_levels() {
    let (mut lengths, mut levels) = ([0; 3], [0; 65]);
    count(1000, 9, |random| {
        let long = long_run_case(random);
        levels[long.levels] += 1;
        for length in long.subtrees.iter().map(|subtree| subtree.len()) {
            if let Some(count) = lengths.get_mut(length.wrapping_sub(4095)) {
                *count += 1;
            }
        }
        0
    });
    assert!(lengths.iter().all(|&count| count >= 100), "{lengths:?}");
    assert!(levels[12..].iter().all(|&count| count > 0) && levels[64] >= 100, "{levels:?}");
}

#[test]
fn reductions_reach_every_answer() {
    let counts = count(20_000, 5, |random| {
        let case = reduce_case(random);
        let (mut workspace, mut output) = (vec![3; case.workspace], vec![4; case.output]);
        reduce(&case.pack, &mut workspace, &mut output).number()
    });
    assert_reached(counts, &[0, 1, 2, 3, 4, 5, 6, 7, 8, 9, 10, 11, 12, 13, 26]);
}

#[test]
fn what_reduces_is_well_formed() {
    count(10_000, 6, |random| {
        let (number, translation) = reduce_answer(&reduce_case(random).pack);
        if number == 0 {
            assert_eq!(check_translation(&translation).number(), 0);
        }
        number
    });
}

#[test]
fn the_same_seed_gives_the_same_cases() {
    let (mut one, mut other) = (Random::new(7), Random::new(7));
    for _ in 0..100 {
        assert_eq!(reduce_case(&mut one).pack, reduce_case(&mut other).pack);
    }
}
