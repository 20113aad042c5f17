//! Load scores and joined tables: each refusal, each limit on both sides, the definitions, and the
//! law that a joined table scores a tree as its run is scored.

mod build;
mod model;

use build::*;
use model::{fields, Code, Grammar, Translation, Tree};
use reference::generate::{
    join_table_case, score_case, scored_run_case, JoinTableCase, Random, ScoreCase,
};
use reference::{check_language, check_translation, check_tree, join_table, run, score};
use std::collections::BTreeMap;

/// Class 2 of all values; kind 1: a leaf 0 with a token, a link 1, a pair 2 and another link 3.
fn language() -> Vec<u8> {
    let productions = [&[2][..], &[1], &[1, 1], &[1]];
    let productions = (0..).zip(productions).map(|(name, of)| production(1, name, of));
    [vec![class(2, 0, 65_535)], productions.collect()].concat().concat()
}

/// A table of the language: constant and factor of leaf and link, and constant and factors of the
/// pair; the other link scores as what is below it.
fn table(leaf: (i16, i16), link: (i16, i16), pair: (i16, i16, i16)) -> Vec<u8> {
    [
        load(1, 0, leaf.0, &[leaf.1]),
        load(1, 1, link.0, &[link.1]),
        load(1, 2, pair.0, &[pair.1, pair.2]),
        load(1, 3, 0, &[1]),
    ]
    .concat()
}

/// The number and the score of a tree; a refused score is 0.
fn scored(language: &[u8], root: u32, tree: &[u8], table: &[u8]) -> (u32, i64) {
    let found = score(language, root, tree, table);
    assert_eq!(found.outcome.length(), 0);
    assert!(found.outcome.number() == 0 || found.score == 0);
    (found.outcome.number(), found.score)
}

/// A leaf with a token.
fn leaf(value: u16) -> Vec<u8> {
    [&[0], &value.to_be_bytes()[..]].concat()
}

/// A tree of the first bytes and then these trees.
fn above(first: &[u8], trees: &[Vec<u8>]) -> Vec<u8> {
    [first, &trees.concat()].concat()
}

#[test]
fn signs_of_constants_and_factors() {
    let by = |constant, factor, value| {
        let table = table((constant, factor), (0, 0), (0, 0, 0));
        scored(&language(), 1, &leaf(value), &table)
    };
    assert_eq!(by(0, 2, 5), (0, 10));
    assert_eq!(by(-10, 2, 5), (0, 0));
    assert_eq!(by(-11, 2, 5), (0, -1));
    assert_eq!(by(0, -1, 65_535), (0, -65_535));
    assert_eq!(by(-32_768, 0, 65_535), (0, -32_768));
    assert_eq!(by(32_767, 1, 0), (0, 32_767));
    assert_eq!(by(32_767, 15_258, 65_535), (0, 999_965_797));
    assert_eq!(by(0, 32_767, 65_535), (19, 0));
    assert_eq!(by(0, -32_768, 65_535), (19, 0));
}

#[test]
fn a_token_scores_its_value() {
    for value in [0u16, 1, 32_767, 32_768, 65_535] {
        let table = table((0, 0), (0, 0), (0, 0, 0));
        let found = scored(&language(), 2, &value.to_be_bytes(), &table);
        assert_eq!(found, (0, i64::from(value)));
    }
}

/// A leaf of 40,000 by a factor of 25,000 is a thousand millions, with this constant and sign.
fn thousand_millions(sign: i16, constant: i16) -> (u32, i64) {
    let table = table((constant, sign * 25_000), (0, 0), (0, 0, 0));
    scored(&language(), 1, &leaf(40_000), &table)
}

#[test]
fn the_range_of_scores() {
    assert_eq!(thousand_millions(1, 0), (0, 1_000_000_000));
    assert_eq!(thousand_millions(1, 1), (19, 0));
    assert_eq!(thousand_millions(1, -1), (0, 999_999_999));
    assert_eq!(thousand_millions(-1, 0), (0, -1_000_000_000));
    assert_eq!(thousand_millions(-1, -1), (19, 0));
    assert_eq!(thousand_millions(-1, 1), (0, -999_999_999));
}

#[test]
fn only_finished_scores_are_tested() {
    let most = leaf(40_000);
    let pair = |constant, first, second| {
        let table = table((0, 25_000), (0, 0), (constant, first, second));
        let tree = above(&[2], &[most.clone(), most.clone()]);
        scored(&language(), 1, &tree, &table)
    };
    assert_eq!(pair(0, 2, -1), (0, 1_000_000_000));
    assert_eq!(pair(1, 2, -1), (19, 0));
    assert_eq!(pair(0, -1, 2), (0, 1_000_000_000));
    assert_eq!(pair(0, -2, 1), (0, -1_000_000_000));
    assert_eq!(pair(-1, -2, 1), (19, 0));
    assert_eq!(pair(5, 32_767, -32_767), (0, 5));
    assert_eq!(pair(0, 32_767, -32_768), (0, -1_000_000_000));
    assert_eq!(pair(0, -32_768, 32_767), (0, -1_000_000_000));
    assert_eq!(pair(-1, -32_768, 32_767), (19, 0));
    let eight = [class(2, 0, 65_535), production(1, 0, &[2]), production(1, 8, &[1; 8])].concat();
    let tree = above(&[8], &vec![most.clone(); 8]);
    let by = |factors: [i16; 8]| {
        let table = [load(1, 0, 0, &[25_000]), load(1, 8, 0, &factors)].concat();
        scored(&eight, 1, &tree, &table)
    };
    assert_eq!(by([32_767, 32_767, 32_767, 32_767, -32_767, -32_767, -32_767, -32_766]).0, 0);
    assert_eq!(by([32_767; 8]), (19, 0));
    assert_eq!(by([-32_768; 8]), (19, 0));
}

#[test]
fn every_node_is_tested() {
    let past = leaf(40_000);
    let table = |factor, first| table((1, 25_000), (0, factor), (0, first, 0));
    for factor in [0, 1, -1] {
        let tree = [&[1], &past[..]].concat();
        assert_eq!(scored(&language(), 1, &tree, &table(factor, 0)), (19, 0));
    }
    let tree = above(&[2], &[past.clone(), leaf(0)]);
    assert_eq!(scored(&language(), 1, &tree, &table(0, 0)), (19, 0));
    let tree = above(&[2], &[leaf(0), past]);
    assert_eq!(scored(&language(), 1, &tree, &table(0, 1)), (19, 0));
}

#[test]
fn tables_that_are_no_tables_of_the_language() {
    let good = table((1, 2), (3, 4), (5, 6, 7));
    let lines: Vec<Vec<u8>> =
        fields(&good).into_iter().map(|(tag, contents)| field(tag, contents)).collect();
    let number = |lines: &[Vec<u8>]| scored(&language(), 1, &leaf(5), &lines.concat()).0;
    assert_eq!(number(&lines), 0);
    let with = |place: usize, line: Vec<u8>| {
        let mut lines = lines.clone();
        lines[place] = line;
        number(&lines)
    };
    assert_eq!(with(1, load(1, 1, 0, &[])), 18);
    assert_eq!(with(1, load(1, 1, 0, &[1, 2])), 18);
    assert_eq!(with(1, load(1, 4, 0, &[1])), 18);
    assert_eq!(with(1, load(2, 1, 0, &[1])), 18);
    assert_eq!(with(1, load(33, 1, 0, &[1])), 18);
    assert_eq!(with(1, field(0x23, &lines[1][3..])), 18);
    assert_eq!(with(1, field(0x24, &lines[1][3..8])), 18);
    assert_eq!(with(1, field(0x24, &[])), 18);
    assert_eq!(with(1, vec![]), 18);
    assert_eq!(with(1, [lines[1].clone(), lines[1].clone()].concat()), 18);
    assert_eq!(with(3, [lines[3].clone(), load(1, 4, 0, &[])].concat()), 18);
    assert_eq!(with(3, [lines[3].clone(), vec![0]].concat()), 18);
    assert_eq!(with(0, [load(0, 0, 0, &[]), lines[0].clone()].concat()), 18);
    let swapped = [lines[1].clone(), lines[0].clone(), lines[2].clone(), lines[3].clone()];
    assert_eq!(number(&swapped), 18);
    for end in 0..good.len() {
        assert_eq!(scored(&language(), 1, &leaf(5), &good[..end]).0, 18, "{end}");
    }
}

#[test]
fn the_empty_table() {
    assert_eq!(scored(&class(2, 5, 9), 2, &[0, 7], &[]), (0, 7));
    assert_eq!(scored(&class(2, 5, 9), 2, &[0, 7], &[0]), (18, 0));
    assert_eq!(scored(&class(2, 5, 9), 2, &[0, 7], &load(1, 0, 0, &[])), (18, 0));
    assert_eq!(scored(&[], 2, &[], &[]), (14, 0));
}

#[test]
fn the_order_of_refusals_of_a_score() {
    let good = table((30_000, 25_000), (0, 1), (0, 0, 0));
    let number =
        |language: &[u8], root, tree: &[u8], table: &[u8]| scored(language, root, tree, table).0;
    let clash = [class(1, 0, 1), language()[8..].to_vec()].concat();
    assert_eq!(number(&[0; 1025], 9, &[], &[0]), 1);
    assert_eq!(number(&[0x12], 9, &[], &[0]), 2);
    assert_eq!(number(&[language(), class(2, 0, 1)].concat(), 9, &[], &[0]), 3);
    assert_eq!(number(&clash, 9, &[], &[0]), 4);
    assert_eq!(number(&language(), 9, &[], &[0]), 18);
    assert_eq!(number(&language(), 9, &[], &good), 14);
    assert_eq!(number(&language(), 1, &[], &good), 15);
    assert_eq!(number(&language(), 1, &[1; 65], &good), 16);
    let past = leaf(65_535);
    assert_eq!(number(&language(), 1, &above(&[2], &[past.clone(), vec![9]]), &good), 15);
    assert_eq!(number(&language(), 1, &above(&[2], &[past.clone(), vec![1; 64]]), &good), 16);
    assert_eq!(number(&language(), 1, &[&past[..], &[0]].concat(), &good), 15);
    assert_eq!(number(&language(), 1, &past, &good), 19);
}

/// Source production 3.4 with arguments of kinds 1 and 2, its kind mapped, with a code.
fn one_clause(kind: u8, code: &[u8]) -> Vec<u8> {
    let source = [class(2, 0, 65_535), production(3, 4, &[1, 2])].concat();
    let body = [mapping(1, 1), mapping(2, 2), mapping(3, kind), clause(3, 4, code)].concat();
    translation(&source, &language(), &body)
}

/// The number and the joined table, with an output of so many bytes; the rest stays as it was.
fn joined(translation: &[u8], table: &[u8], room: usize) -> (u32, Vec<u8>) {
    let mut output = vec![0xD5; room];
    let outcome = join_table(translation, table, &mut output);
    let rest = output.split_off(outcome.length() as usize);
    assert!(rest.iter().all(|&byte| byte == 0xD5));
    assert!(outcome.number() == 0 || output.is_empty());
    (outcome.number(), output)
}

/// The number, and constant and factors of the one clause if it is accepted.
fn figures(kind: u8, code: &[u8], table: &[u8]) -> (u32, Option<[i16; 3]>) {
    let (number, joined) = joined(&one_clause(kind, code), table, 11);
    let figure = |place: usize| i16::from_be_bytes([joined[place], joined[place + 1]]);
    (number, (number == 0).then(|| [5, 7, 9].map(figure)))
}

#[test]
fn figures_of_codes() {
    let by = table((1, 2), (3, -4), (5, 6, -7));
    assert_eq!(figures(1, &[3, 1], &by), (0, Some([0, 1, 0])));
    assert_eq!(figures(1, &[1, 0, 3, 2], &by), (0, Some([1, 0, 2])));
    assert_eq!(figures(1, &[1, 0, 2, 0, 9], &by), (0, Some([19, 0, 0])));
    assert_eq!(figures(1, &[1, 1, 1, 1, 3, 1], &by), (0, Some([-9, 16, 0])));
    assert_eq!(figures(1, &[1, 2, 3, 1, 1, 0, 3, 2], &by), (0, Some([-2, 6, -14])));
    assert_eq!(figures(1, &[1, 2, 3, 1, 3, 1], &by), (0, Some([5, -1, 0])));
    assert_eq!(figures(2, &[3, 2], &by), (0, Some([0, 0, 1])));
    assert_eq!(figures(2, &[2, 0, 9], &by), (0, Some([9, 0, 0])));
}

#[test]
fn a_token_at_the_root_of_a_code_fits_two_bytes() {
    let by = table((0, 0), (0, 0), (0, 0, 0));
    assert_eq!(figures(2, &[2, 0x7F, 0xFF], &by), (0, Some([32_767, 0, 0])));
    assert_eq!(figures(2, &[2, 0x80, 0], &by), (11, None));
    assert_eq!(figures(2, &[2, 0xFF, 0xFF], &by), (11, None));
}

#[test]
fn a_token_inside_a_code_is_not_tested() {
    let number = |leaf| figures(1, &[1, 0, 2, 0xFF, 0xFF], &table(leaf, (0, 0), (0, 0, 0)));
    assert_eq!(number((0, 0)), (0, Some([0, 0, 0])));
    assert_eq!(number((-32_768, 1)), (0, Some([32_767, 0, 0])));
    assert_eq!(number((-32_767, 1)), (11, None));
    assert_eq!(number((32_767, -1)), (0, Some([-32_768, 0, 0])));
    assert_eq!(number((32_766, -1)), (11, None));
    assert_eq!(number((0, 32_767)), (11, None));
    assert_eq!(number((0, -32_768)), (11, None));
}

#[test]
fn every_production_of_a_code_is_tested() {
    let inner = [1, 0, 2, 0xFF, 0xFF];
    let by = |link| figures(1, &[&[1, 1], &inner[..]].concat(), &table((0, 1), link, (0, 0, 0)));
    assert_eq!(by((0, 0)), (11, None));
    assert_eq!(by((0, 1)), (11, None));
    let pair = [&[1, 2], &inner[..], &inner].concat();
    assert_eq!(figures(1, &pair, &table((0, 1), (0, 0), (0, 1, -1))), (11, None));
    assert_eq!(figures(1, &pair, &table((-32_768, 1), (0, 0), (0, 1, -1))), (0, Some([0; 3])));
    assert_eq!(figures(1, &pair, &table((-32_768, 1), (0, 0), (1, 1, 0))), (11, None));
    let link = |factor| figures(1, &[1, 1, 1, 1, 3, 1], &table((0, 0), (0, factor), (0, 0, 0)));
    assert_eq!(link(181), (0, Some([0, 32_761, 0])));
    assert_eq!(link(182), (11, None));
    assert_eq!(link(-181), (0, Some([0, 32_761, 0])));
    assert_eq!(link(-182), (11, None));
    let twice =
        |one, other| figures(1, &[1, 2, 3, 1, 3, 1], &table((0, 0), (0, 0), (0, one, other)));
    assert_eq!(twice(32_767, 1), (11, None));
    assert_eq!(twice(32_767, 0), (0, Some([0, 32_767, 0])));
    assert_eq!(twice(-32_767, -1), (0, Some([0, -32_768, 0])));
    assert_eq!(twice(-32_768, -1), (11, None));
    assert_eq!(twice(32_767, -32_768), (0, Some([0, -1, 0])));
}

#[test]
fn the_order_of_refusals_of_a_joined_table() {
    let good = table((0, 0), (0, 0), (0, 0, 0));
    let number = |translation: &[u8], table: &[u8], room| joined(translation, table, room).0;
    let over = one_clause(2, &[2, 0xFF, 0xFF]);
    assert_eq!(number(&[0; 4097], &[0], 0), 1);
    assert_eq!(number(&[], &[0], 0), 2);
    assert_eq!(number(&one_clause(9, &[3, 1]), &[0], 0), 5);
    assert_eq!(number(&one_clause(1, &[9]), &[0], 0), 7);
    assert_eq!(number(&over, &[0], 0), 18);
    assert_eq!(number(&over, &load(3, 4, 0, &[1, 1]), 0), 18);
    assert_eq!(number(&over, &good, 0), 11);
    assert_eq!(number(&one_clause(1, &[3, 1]), &good, 0), 17);
    assert_eq!(number(&one_clause(1, &[3, 1]), &good, 10), 17);
    assert_eq!(number(&one_clause(1, &[3, 1]), &good, 11), 0);
    assert_eq!(joined(&translation(&[], &[], &[]), &[], 0), (0, vec![]));
}

/// The lines of a table by production: constant, then factors.
type Lines = BTreeMap<(u8, u8), Vec<i128>>;

/// The lines of a table, if it is one of these productions.
fn lines(grammar: &Grammar, table: &[u8]) -> Option<Lines> {
    let (mut lines, mut rest) = (Lines::new(), table);
    for (&(result, name), arguments) in &grammar.productions {
        let length = 4 + 2 * arguments.len();
        let head = [0x24, 0, length as u8, result, name];
        let line = rest.strip_prefix(&head)?.get(..length - 2)?;
        let figure = |bytes: &[u8]| i128::from(i16::from_be_bytes([bytes[0], bytes[1]]));
        lines.insert((result, name), line.chunks(2).map(figure).collect());
        rest = &rest[3 + length..];
    }
    rest.is_empty().then_some(lines)
}

/// The constant plus each factor times a score.
fn combined(line: &[i128], scores: &[i128]) -> i128 {
    let products = line[1..].iter().zip(scores).map(|(factor, score)| factor * score);
    line[0] + products.sum::<i128>()
}

/// The score of a tree by its definition, if that of each node is in range.
fn defined(tree: &Tree, lines: &Lines) -> Option<i128> {
    match tree {
        Tree::Token { value, .. } => Some(i128::from(*value)),
        Tree::Production { kind, name, arguments } => {
            let scores = arguments.iter().map(|tree| defined(tree, lines));
            let scores: Option<Vec<i128>> = scores.collect();
            let own = combined(&lines[&(*kind, *name)], &scores?);
            (own.abs() <= 1_000_000_000).then_some(own)
        }
    }
}

/// What a score must answer.
fn expected_score(case: &ScoreCase) -> (u32, i64) {
    let number = check_language(&case.language).number();
    if number != 0 {
        return (number, 0);
    }
    let grammar = Grammar::new(&case.language);
    let Some(lines) = lines(&grammar, &case.table) else { return (18, 0) };
    let number = check_tree(&case.language, case.root, &case.tree).number();
    if number != 0 {
        return (number, 0);
    }
    let found = defined(&grammar.tree(case.root, &case.tree), &lines);
    found.map_or((19, 0), |score| (0, score as i64))
}

/// Each number that is possible is reached, and no other.
fn assert_reached(counts: [usize; 27], possible: &[usize]) {
    for (number, &count) in counts.iter().enumerate() {
        assert_eq!(count >= 20, possible.contains(&number), "{number}: {counts:?}");
    }
}

#[test]
fn scores_are_as_defined_and_reach_every_answer() {
    let (mut random, mut counts, mut signs) = (Random::new(31), [0; 27], [0; 3]);
    let (mut ends, mut deep) = (0, 0);
    for case in 0..30_000 {
        let input = score_case(&mut random);
        let (number, score) = scored(&input.language, input.root, &input.tree, &input.table);
        assert_eq!((number, score), expected_score(&input), "case {case}: {input:?}");
        counts[number as usize] += 1;
        signs[(score.signum() + 1) as usize] += usize::from(number == 0);
        ends += usize::from(score.abs() == 1_000_000_000);
        deep += usize::from(number == 0 && input.tree.len() > 60);
    }
    assert_reached(counts, &[0, 1, 2, 3, 4, 14, 15, 16, 18, 19]);
    assert!(signs.iter().all(|&count| count > 300) && ends > 100 && deep > 500, "{signs:?} {ends}");
}

/// The score of a code where its arguments have these scores.
fn code_score(code: &Code, arguments: &[i128], lines: &Lines) -> i128 {
    match code {
        Code::Token(value) => i128::from(*value),
        Code::Argument(number) => arguments[number - 1],
        Code::Production { kind, name, arguments: codes } => {
            let scores = codes.iter().map(|code| code_score(code, arguments, lines));
            combined(&lines[&(*kind, *name)], &scores.collect::<Vec<_>>())
        }
    }
}

/// The constant and the factors of a code: its score where all arguments score 0, and how much it
/// grows where one of them scores 1.
fn code_figures(code: &Code, count: usize, lines: &Lines) -> Vec<i128> {
    let constant = code_score(code, &vec![0; count], lines);
    let factor = |number: usize| {
        let mut arguments = vec![0; count];
        arguments[number] = 1;
        code_score(code, &arguments, lines) - constant
    };
    [constant].into_iter().chain((0..count).map(factor)).collect()
}

/// Whether the figures fit two bytes at each production of a code.
fn fits_inside(code: &Code, count: usize, lines: &Lines) -> bool {
    match code {
        Code::Production { arguments, .. } => {
            arguments.iter().all(|code| fits_inside(code, count, lines))
                && fits(&code_figures(code, count, lines))
        }
        _ => true,
    }
}

/// Whether figures fit two bytes with a sign.
fn fits(figures: &[i128]) -> bool {
    figures.iter().all(|figure| (-32_768..=32_767).contains(figure))
}

/// The field of a source production, if its figures fit.
fn joined_line(key: (u8, u8), code: &Code, count: usize, lines: &Lines) -> Option<Vec<u8>> {
    if !fits_inside(code, count, lines) {
        return None;
    }
    let figures = code_figures(code, count, lines);
    let narrow: Vec<i16> = figures.iter().map(|&figure| figure as i16).collect();
    fits(&figures).then(|| load(key.0, key.1, narrow[0], &narrow[1..]))
}

/// Whether a translation has a mapping of another number than 0.
fn has_other_numbers(translation: &[u8]) -> bool {
    fields(translation).iter().any(|(tag, _)| *tag == 0x28)
}

/// What a join must answer.
fn expected_join(case: &JoinTableCase) -> (u32, Vec<u8>) {
    let number = check_translation(&case.translation).number();
    if number != 0 {
        return (number, vec![]);
    }
    if has_other_numbers(&case.translation) {
        return (26, vec![]);
    }
    let translation = Translation::new(&case.translation);
    let Some(lines) = lines(&translation.target, &case.table) else { return (18, vec![]) };
    let fields = translation.clauses.iter().map(|(key, code)| {
        let count = translation.source.productions[key].len();
        joined_line(*key, code, count, &lines)
    });
    match fields.collect::<Option<Vec<_>>>().map(|fields| fields.concat()) {
        None => (11, vec![]),
        Some(table) if table.len() > case.output => (17, vec![]),
        Some(table) => (0, table),
    }
}

#[test]
fn joined_tables_are_as_defined_and_reach_every_answer() {
    let (mut random, mut counts) = (Random::new(32), [0; 27]);
    for case in 0..20_000 {
        let input = join_table_case(&mut random);
        let found = joined(&input.translation, &input.table, input.output);
        assert_eq!(found, expected_join(&input), "case {case}: {input:?}");
        counts[found.0 as usize] += 1;
    }
    assert_reached(counts, &[0, 1, 2, 3, 4, 5, 6, 7, 11, 17, 18, 26]);
}

/// What the law says of one case: whether both scores are accepted, and then that they are equal.
fn law(random: &mut Random) -> Option<i64> {
    let case = scored_run_case(random);
    let (file, root, tree) = (&case.run.translation, case.run.root, &case.run.tree);
    let (number, table) = joined(file, &case.table, 5000);
    let mut output = vec![0; 5000];
    let outcome = run(file, root, 0, tree, &mut output);
    if number != 0 || outcome.number() != 0 {
        return None;
    }
    let translation = Translation::new(file);
    let result = &output[..outcome.length() as usize];
    let target_root = u32::from(translation.mapping[&(root as u8)]);
    let before = scored(&translation.source_bytes, root, tree, &table);
    let after = scored(&translation.target_bytes, target_root, result, &case.table);
    assert!(matches!(before.0, 0 | 19), "a joined table is one of the source: {case:?}");
    if before.0 != 0 || after.0 != 0 {
        return None;
    }
    assert_eq!(before.1, after.1, "{case:?}");
    Some(before.1)
}

#[test]
fn a_joined_table_scores_a_tree_as_its_run_is_scored() {
    let mut random = Random::new(33);
    let scores: Vec<i64> = (0..20_000).filter_map(|_| law(&mut random)).collect();
    let other = scores.iter().filter(|&&score| score != 0).count();
    assert!(scores.len() > 2000 && other > 1000, "{} {other}", scores.len());
}
