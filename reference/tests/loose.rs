//! Scores of loose plans: each refusal, the limits at either end, and plans against every choice of
//! their tokens.

mod build;

use build::*;
use reference::generate::{loose_case, Random, ScoreCase};
use reference::laws::loose::{law_of_loose, Operations, SAID};
use reference::{score, score_loose};

/// Minutes of 1 to 240, rates of 100 to 200 in fives; 1.0 (2), 1.1 (3), 1.2 (1 1), 1.3 (), 1.4 (1).
fn language() -> Vec<u8> {
    let arguments: [&[u8]; 5] = [&[2], &[3], &[1, 1], &[], &[1]];
    let productions = (0..).zip(arguments).map(|(name, of)| production(1, name, of));
    let classes = vec![class(2, 1, 240), stepped_class(3, 100, 200, 5)];
    [classes, productions.collect()].concat().concat()
}

/// A table of the language with these figures for 1.0, 1.1 and 1.2; 1.3 counts 4, 1.4 nothing more.
fn table(minutes: [i16; 2], rate: [i16; 2], pair: [i16; 3]) -> Vec<u8> {
    [
        load(1, 0, minutes[0], &minutes[1..]),
        load(1, 1, rate[0], &rate[1..]),
        load(1, 2, pair[0], &pair[1..]),
        load(1, 3, 4, &[]),
        load(1, 4, 0, &[1]),
    ]
    .concat()
}

/// Each value counts once.
fn plain() -> Vec<u8> {
    table([0, 1], [0, 1], [0, 1, 1])
}

/// Number and ends of a plan of kind 1.
fn ends(plan: &[u8], table: &[u8]) -> (u32, i64, i64) {
    let found = score_loose(&language(), 1, plan, table);
    assert_eq!(found.outcome.length(), 0);
    (found.outcome.number(), found.ends.least, found.ends.greatest)
}

/// The number of a refusal, whose ends are 0 and 0.
fn refused(plan: &[u8], table: &[u8]) -> u32 {
    let (number, least, greatest) = ends(plan, table);
    assert_eq!((least, greatest), (0, 0));
    number
}

#[test]
fn a_token_scores_its_two_values() {
    assert_eq!(ends(&[0, 0, 20, 0, 30], &plain()), (0, 20, 30));
    let token = score_loose(&language(), 2, &[0, 20, 0, 30], &plain());
    assert_eq!((token.outcome.number(), token.ends.least, token.ends.greatest), (0, 20, 30));
}

#[test]
fn a_negative_factor_exchanges_the_ends() {
    let taken = table([10, -2], [0, 1], [1, 1, -3]);
    assert_eq!(ends(&[0, 0, 20, 0, 30], &taken), (0, -50, -30));
    let pair = [2, 0, 0, 1, 0, 2, 0, 0, 3, 0, 5];
    assert_eq!(ends(&pair, &taken), (0, 1 + 6 - 3 * 4, 1 + 8));
}

#[test]
fn a_factor_of_0_counts_neither_end() {
    assert_eq!(ends(&[0, 0, 20, 0, 30], &table([7, 0], [0, 1], [0, 0, 0])), (0, 7, 7));
}

#[test]
fn a_plan_without_tokens_has_equal_ends() {
    assert_eq!(ends(&[3], &plain()), (0, 4, 4));
    assert_eq!(ends(&[2, 3, 3], &plain()), (0, 8, 8));
}

#[test]
fn both_values_are_legal_by_the_step_too() {
    assert_eq!(ends(&[1, 0, 100, 0, 200], &plain()), (0, 100, 200));
    assert_eq!(ends(&[1, 0, 105, 0, 105], &plain()), (0, 105, 105));
    for values in [[0, 101, 0, 105], [0, 100, 0, 104], [0, 95, 0, 100], [0, 100, 0, 205]] {
        assert_eq!(refused(&[&[1][..], &values].concat(), &plain()), 15, "{values:?}");
    }
}

#[test]
fn the_least_is_not_above_the_greatest() {
    assert_eq!(refused(&[0, 0, 31, 0, 30], &plain()), 15);
    assert_eq!(ends(&[0, 0, 30, 0, 30], &plain()), (0, 30, 30));
    assert_eq!(ends(&[0, 0, 29, 0, 30], &plain()), (0, 29, 30));
    assert_eq!(refused(&[1, 0, 110, 0, 105], &plain()), 15);
}

#[test]
fn tokens_that_break_off_and_bytes_left_over() {
    let plan = [0, 0, 20, 0, 30];
    for length in 0..plan.len() {
        assert_eq!(refused(&plan[..length], &plain()), 15, "{length} bytes");
    }
    assert_eq!(refused(&[&plan[..], &[0]].concat(), &plain()), 15);
    assert_eq!(refused(&[9], &plain()), 15);
}

#[test]
fn refusals_in_order() {
    let number = |language: &[u8], root, plan: &[u8], table: &[u8]| {
        score_loose(language, root, plan, table).outcome.number()
    };
    let (language, plain) = (language(), plain());
    let last = |entry: Vec<u8>| [language.clone(), entry].concat();
    assert_eq!(number(&[0; 1025], 9, &[], &[]), 1);
    assert_eq!(number(&[0x11], 9, &[], &[]), 2);
    assert_eq!(number(&last(class(4, 0, 9)), 9, &[], &[]), 3);
    let clash = [class(1, 0, 9), language.clone()].concat();
    assert_eq!(number(&clash, 9, &[], &[]), 4);
    assert_eq!(number(&language, 9, &[], &[]), 18);
    assert_eq!(number(&language, 9, &[], &plain[..plain.len() - 1]), 18);
    assert_eq!(number(&language, 9, &[], &plain), 14);
    assert_eq!(number(&language, 257, &[], &plain), 14);
    assert_eq!(number(&language, 1, &[], &plain), 15);
    assert_eq!(number(&language, 1, &[4; 65], &plain), 16);
}

#[test]
fn levels_and_tokens_in_reading_order() {
    let deep = |links: usize, end: &[u8]| [&vec![4; links][..], end].concat();
    assert_eq!(ends(&deep(63, &[0, 0, 20, 0, 30]), &plain()), (0, 20, 30));
    assert_eq!(refused(&deep(64, &[0, 0, 20, 0, 30]), &plain()), 16);
    assert_eq!(refused(&deep(64, &[]), &plain()), 16);
    assert_eq!(refused(&deep(63, &[]), &plain()), 15);
    assert_eq!(refused(&[&[2, 0, 0, 30, 0, 20][..], &[4; 65]].concat(), &plain()), 15);
    assert_eq!(refused(&[&[2][..], &[4; 65], &[0, 0, 30, 0, 20]].concat(), &plain()), 16);
    assert_eq!(refused(&deep(64, &[0, 0, 30, 0, 20]), &plain()), 16);
}

/// 0 to 65,535; 1.0 (2), and 1.1 (1).
fn wide() -> Vec<u8> {
    [class(2, 0, u16::MAX), production(1, 0, &[2]), production(1, 1, &[1])].concat()
}

/// Number and ends of a plan of one token, by constant and factor of 1.0 and those of 1.1 around it.
fn at_limit(values: [u16; 2], leaf: [i16; 2], link: Option<[i16; 2]>) -> (u32, i64, i64) {
    let [constant, factor] = link.unwrap_or([0, 0]);
    let table = [load(1, 0, leaf[0], &leaf[1..]), load(1, 1, constant, &[factor])].concat();
    let token = values.map(u16::to_be_bytes).concat();
    let links = if link.is_some() { &[1, 0][..] } else { &[0] };
    let found = score_loose(&wide(), 1, &[links, &token].concat(), &table);
    (found.outcome.number(), found.ends.least, found.ends.greatest)
}

#[test]
fn either_end_out_of_range_is_19() {
    let most = 1_000_000_000;
    assert_eq!(at_limit([0, 40_000], [0, 25_000], None), (0, 0, most));
    assert_eq!(at_limit([0, 40_000], [1, 25_000], None).0, 19);
    assert_eq!(at_limit([40_000, 40_000], [1, 25_000], None).0, 19);
    assert_eq!(at_limit([0, 40_000], [0, -25_000], None), (0, -most, 0));
    assert_eq!(at_limit([0, 40_000], [-1, -25_000], None).0, 19);
    assert_eq!(at_limit([0, 40_000], [1, -25_000], None), (0, 1 - most, 1));
    assert_eq!(at_limit([40_001, 65_535], [0, 25_000], None).0, 19);
    assert_eq!(at_limit([0, 40_001], [0, 25_000], None).0, 19);
}

#[test]
fn a_node_below_the_root_is_tested_too() {
    let most = 1_000_000_000;
    assert_eq!(at_limit([0, 40_000], [0, 25_000], Some([0, 0])), (0, 0, 0));
    assert_eq!(at_limit([0, 40_000], [1, 25_000], Some([0, 0])).0, 19);
    assert_eq!(at_limit([0, 40_000], [0, 25_000], Some([1, -1])), (0, 1 - most, 1));
    assert_eq!(at_limit([0, 40_000], [0, 25_000], Some([-1, -1])).0, 19);
    assert_eq!(at_limit([0, 40_000], [0, 25_000], Some([0, 2])).0, 19);
}

#[test]
fn a_sum_on_the_way_may_lie_outside() {
    let language = [class(2, 0, u16::MAX), production(1, 0, &[2, 2])].concat();
    let plan = [0, 0xFF, 0xFF, 0xFF, 0xFF, 0xFF, 0xFF, 0xFF, 0xFF];
    for factors in [[32_767, -32_767], [-32_767, 32_767]] {
        let found = score_loose(&language, 1, &plan, &load(1, 0, 5, &factors));
        assert_eq!((found.outcome.number(), found.ends.least, found.ends.greatest), (0, 5, 5));
    }
}

/// All fixed plans that a loose plan of small ranges can be settled to, by the classes' steps.
fn all_choices(plan: &[u8]) -> Vec<Vec<u8>> {
    let Some((&name, rest)) = plan.split_first() else { return vec![vec![]] };
    if name > 1 {
        return all_choices(rest).into_iter().map(|rest| [vec![name], rest].concat()).collect();
    }
    let (step, rests) = ([1, 5][usize::from(name)], all_choices(&rest[4..]));
    let choices = (rest[1]..=rest[3]).step_by(step).map(|value| vec![name, 0, value]);
    let joined = |choice: Vec<u8>| rests.iter().map(move |rest| [&choice[..], rest].concat());
    choices.flat_map(joined).collect()
}

/// A small loose plan of kind 1 with so many levels.
fn small_plan(random: &mut Random, levels: usize) -> Vec<u8> {
    let (minutes, rate) = (random.within(1..=40) as u8, 5 * random.within(20..=36) as u8);
    let (more, steps) = (random.below(4) as u8, 5 * random.below(3) as u8);
    match random.below(if levels < 2 { 3 } else { 6 }) {
        0 => vec![0, 0, minutes, 0, minutes + more],
        1 => vec![1, 0, rate, 0, rate + steps],
        2 => vec![3],
        3 => [vec![4], small_plan(random, levels - 1)].concat(),
        _ => {
            let arguments = [small_plan(random, levels - 1), small_plan(random, levels - 1)];
            [vec![2], arguments.concat()].concat()
        }
    }
}

#[test]
fn the_ends_are_the_least_and_greatest_of_all_choices() {
    let mut random = Random::new(14);
    let mut different = 0;
    for case in 0..2000 {
        let plan = small_plan(&mut random, 4);
        let choices = all_choices(&plan);
        if choices.len() > 2000 {
            continue;
        }
        let mut figure = || random.within(0..=8) as i16 - 4;
        let [a, b, c, d, e, f, g] = std::array::from_fn(|_| figure());
        let table = table([a, b], [c, d], [e, f, g]);
        let scores = choices.iter().map(|tree| score(&language(), 1, tree, &table));
        let scores: Vec<i64> = scores.map(|found| found.score).collect();
        let (least, greatest) = (scores.iter().min(), scores.iter().max());
        let expected = (0, *least.expect("a choice"), *greatest.expect("a choice"));
        assert_eq!(ends(&plan, &table), expected, "case {case}: {plan:?}");
        different += usize::from(expected.1 < expected.2);
    }
    assert!(different > 500, "{different}");
}

/// Number and score of a fixed plan.
fn score_of(case: &ScoreCase) -> (u32, i64) {
    let found = score(&case.language, case.root, &case.tree, &case.table);
    (found.outcome.number(), found.score)
}

/// Number and ends of a loose plan.
fn ends_of(case: &ScoreCase) -> (u32, i64, i64) {
    let found = score_loose(&case.language, case.root, &case.tree, &case.table);
    (found.outcome.number(), found.ends.least, found.ends.greatest)
}

#[test]
fn what_holds_of_loose_plans() {
    let (mut random, mut counts) = (Random::new(15), [0; SAID.len()]);
    let operations = Operations { score: &score_of, score_loose: &ends_of };
    for case in 0..10_000 {
        let said = law_of_loose(&operations, &mut random);
        let said = said.unwrap_or_else(|broken| panic!("case {case}: {broken:?}"));
        said.into_iter().for_each(|number| counts[number] += 1);
    }
    assert!(counts.iter().all(|&count| count > 500), "{counts:?}");
}

#[test]
fn loose_plans_reach_every_answer() {
    let (mut random, mut counts) = (Random::new(16), [0; 22]);
    for _ in 0..20_000 {
        let (number, least, greatest) = ends_of(&loose_case(&mut random));
        assert!(number == 0 || (least, greatest) == (0, 0));
        counts[number as usize] += 1;
    }
    for (number, &count) in counts.iter().enumerate() {
        let possible = [0, 1, 2, 3, 4, 14, 15, 16, 18, 19].contains(&number);
        assert_eq!(count >= 20, possible, "{number}: {counts:?}");
    }
}
