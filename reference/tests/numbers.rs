//! Mappings by number: fields 28 and 29, 04 in codes, runs by a number, and what the signs make of
//! numbers.

mod build;

use build::*;
use reference::listing::listing;
use reference::{check_translation, join_table, run};

/// Class 2 of 1 to 9, leaf 1.0, link 1.1 (1), pair 1.2 (1 1), and 1.3 (2).
fn small() -> Vec<u8> {
    [
        class(2, 1, 9),
        production(1, 0, &[]),
        production(1, 1, &[1]),
        production(1, 2, &[1, 1]),
        production(1, 3, &[2]),
    ]
    .concat()
}

/// The codes of the identity of the small language, in the order of its names.
const SAME: [&[u8]; 4] = [&[1, 0], &[1, 1, 3, 1], &[1, 2, 3, 1, 3, 2], &[1, 3, 3, 1]];

/// The codes by which pairs change their order, all the way down, by a number.
fn turned(number: u8) -> [Vec<u8>; 4] {
    let link = vec![1, 1, 4, 1, number];
    let pair = vec![1, 2, 4, 2, number, 4, 1, number];
    [SAME[0].to_vec(), link, pair, SAME[3].to_vec()]
}

/// The small language to itself: by 0 the identity, by each of these numbers pairs change their order.
fn turning_body(numbers: &[u8]) -> Vec<u8> {
    let others = numbers.iter().map(|&number| numbered_mapping(1, number, 1));
    let mut body: Vec<Vec<u8>> = [mapping(1, 1)].into_iter().chain(others).collect();
    body.push(mapping(2, 2));
    for name in 0..4 {
        body.push(clause(1, name, SAME[usize::from(name)]));
        let by =
            |&number: &u8| numbered_clause(1, name, number, &turned(number)[usize::from(name)]);
        body.extend(numbers.iter().map(by));
    }
    body.concat()
}

/// The translation with that body.
fn turning(numbers: &[u8]) -> Vec<u8> {
    translation(&small(), &small(), &turning_body(numbers))
}

/// Number and bytes of a run by a number, from root 1.
fn run_by(translation: &[u8], number: u32, tree: &[u8]) -> (u32, Vec<u8>) {
    let mut output = vec![0xEE; 100];
    let outcome = run(translation, 1, number, tree, &mut output);
    output.truncate(outcome.length() as usize);
    (outcome.number(), output)
}

/// A pair of a pair of two values and of a third.
const TREE: [u8; 11] = [2, 2, 3, 0, 1, 3, 0, 2, 3, 0, 3];
/// The same with each pair in the other order.
const TURNED: [u8; 11] = [2, 3, 0, 3, 2, 3, 0, 2, 3, 0, 1];

#[test]
fn a_run_takes_the_clauses_of_its_number() {
    for number in [1, 15, 16, 255] {
        let value = turning(&[number]);
        assert_eq!(check_translation(&value).number(), 0);
        assert_eq!(run_by(&value, 0, &TREE), (0, TREE.to_vec()));
        assert_eq!(run_by(&value, u32::from(number), &TREE), (0, TURNED.to_vec()));
    }
    let many: Vec<u8> = (1..=40).collect();
    assert_eq!(run_by(&turning(&many), 33, &TREE), (0, TURNED.to_vec()));
}

#[test]
fn a_number_that_the_root_lacks_is_refused_with_the_root() {
    let value = turning(&[1, 255]);
    for number in [2, 254, 256, 257, 65_536 + 1, 1 << 31, u32::MAX] {
        assert_eq!(run_by(&value, number, &TREE), (14, vec![]), "{number}");
        assert_eq!(run_by(&value, number, &[9]).0, 14, "before the tree is looked at");
    }
    let mut output = [0; 9];
    assert_eq!(run(&value, 2, 1, &[0, 5], &mut output).number(), 14, "a class has its own numbers");
    assert_eq!(run(&value, 9, 1, &[0, 5], &mut output).number(), 14);
    assert_eq!(run(&value, 257, 0, &TREE, &mut output).number(), 14);
    let broken = translation(&small(), &small(), &turning_body(&[1])[..3]);
    assert_eq!(run(&broken, 9, 9, &[], &mut output).number(), 2, "after the translation");
}

#[test]
fn a_token_stays_itself_by_each_number() {
    let languages = [[class(2, 1, 9), class(4, 0, 99)].concat(), class(2, 1, 9)];
    let body = [mapping(2, 2), numbered_mapping(2, 7, 4)].concat();
    let value = translation(&languages[1], &languages[0], &body);
    let mut output = [0; 3];
    for number in [0, 7] {
        assert_eq!(run(&value, 2, number, &[0, 5], &mut output).length(), 2);
        assert_eq!(output, [0, 5, 0]);
        assert_eq!(run(&value, 2, number, &[0, 10], &mut output).number(), 15);
    }
}

#[test]
fn lengths_are_exact_where_an_argument_is_used_by_several_numbers() {
    let tree = [vec![1; 30], TREE.to_vec()].concat();
    let body = turning_body(&[3]);
    let start = [mapping(9, 1), field(0x23, &[9, 0, 1, 2, 3, 1, 1, 2, 4, 1, 3, 4, 1, 3])].concat();
    let source = [small(), production(9, 0, &[1])].concat();
    let (mappings, clauses) = body.split_at(16);
    let value =
        translation(&source, &small(), &[mappings, &start[..5], clauses, &start[5..]].concat());
    let tree = [&[0], &tree[..]].concat();
    let length = 2 + 3 * (tree.len() - 1);
    for (output, number) in [(length - 1, 17), (length, 0), (length + 1, 0)] {
        let mut output = vec![0xEE; output];
        let outcome = run(&value, 9, 0, &tree, &mut output);
        assert_eq!(outcome.number(), number);
        assert_eq!(outcome.length(), if number == 0 { length as u64 } else { 0 });
        assert_eq!(
            output.iter().filter(|&&byte| byte == 0xEE).count(),
            output.len() - outcome.length() as usize
        );
    }
}

/// The numbers of checks of the small language to itself with other mappings and clauses.
fn numbers_of(cases: Vec<(&str, Vec<Vec<u8>>, u32)>) {
    for (what, fields, number) in cases {
        let file = translation(&small(), &small(), &fields.concat());
        assert_eq!(check_translation(&file).number(), number, "{what}");
    }
}

/// Clauses of number 0 for the small language.
fn plain_clauses() -> Vec<u8> {
    (0..4).flat_map(|name| clause(1, name, SAME[usize::from(name)])).collect()
}

#[test]
fn fields_of_numbers_are_whole_and_in_order() {
    let (one, two) = (mapping(1, 1), mapping(2, 2));
    let by = |number| numbered_mapping(2, number, 2);
    let rest = plain_clauses();
    let with = |fields: &[&Vec<u8>]| fields.iter().map(|&field| field.clone()).collect::<Vec<_>>();
    let short = numbered_clause(1, 0, 1, &[])[..5].to_vec();
    let short = [&[0x29, 0, 2], &short[3..]].concat();
    numbers_of(vec![
        ("a class by two numbers", with(&[&one, &two, &by(1), &by(255), &rest]), 0),
        ("28 with number 0", with(&[&one, &two, &by(0), &rest]), 2),
        ("28 of length 2", with(&[&one, &two, &field(0x28, &[2, 1]), &rest]), 2),
        ("28 of length 4", with(&[&one, &two, &field(0x28, &[2, 1, 2, 0]), &rest]), 2),
        ("28 of a kind above 31", with(&[&one, &two, &numbered_mapping(32, 1, 2), &rest]), 2),
        ("28 to a kind above 31", with(&[&one, &two, &numbered_mapping(2, 1, 32), &rest]), 2),
        ("29 with number 0", with(&[&one, &two, &rest, &numbered_clause(2, 0, 0, &[1, 0])]), 2),
        ("29 of length 2", with(&[&one, &two, &rest, &short]), 2),
        ("29 of a kind above 31", with(&[&one, &two, &rest, &numbered_clause(32, 0, 1, &[])]), 2),
        ("28 behind a 23", with(&[&one, &two, &rest, &by(1)]), 2),
        ("28 behind a 29", with(&[&one, &two, &numbered_clause(0, 0, 1, &[]), &by(1)]), 2),
        ("22 behind a 29", with(&[&one, &numbered_clause(0, 0, 1, &[]), &two]), 2),
        ("28 before its 22", with(&[&one, &by(1), &two, &rest]), 3),
        ("28 before a 22 of a lower kind", with(&[&by(1), &one, &two, &rest]), 3),
        ("28 falling", with(&[&one, &two, &by(2), &by(1), &rest]), 3),
        ("28 twice", with(&[&one, &two, &by(2), &by(2), &rest]), 3),
        ("29 before its 23", with(&[&one, &two, &numbered_clause(1, 0, 1, &[]), &rest]), 3),
        ("2 before 3", with(&[&one, &by(2), &by(1), &by(0), &rest]), 2),
    ]);
}

#[test]
fn each_number_is_mapped_as_0_is() {
    let (one, two, rest) = (mapping(1, 1), mapping(2, 2), plain_clauses());
    let with = |extra: Vec<u8>| vec![one.clone(), two.clone(), extra, rest.clone()];
    numbers_of(vec![
        ("a kind that is not in the source", with(numbered_mapping(3, 1, 1)), 5),
        ("to a kind that is not in the target", with(numbered_mapping(2, 1, 3)), 5),
        ("a class to a result", with(numbered_mapping(2, 1, 1)), 5),
        ("number 0 is missing", vec![one.clone(), numbered_mapping(2, 1, 2), rest.clone()], 5),
        ("5 before 6", vec![one.clone(), two.clone(), numbered_mapping(2, 1, 9)], 5),
    ]);
    let wide = [class(2, 1, 9), class(5, 1, 8), class(6, 0, 10)].concat();
    for (target, number) in [(2, 0), (5, 5), (6, 0)] {
        let body = [mapping(2, 2), numbered_mapping(2, 3, target)].concat();
        assert_eq!(check_translation(&translation(&class(2, 1, 9), &wide, &body)).number(), number);
    }
    let undefined = production(1, 1, &[3]);
    let body =
        [mapping(1, 1), mapping(3, 1), numbered_mapping(3, 9, 3), clause(1, 1, &[1, 1, 4, 1, 9])];
    assert_eq!(check_translation(&translation(&undefined, &undefined, &body.concat())).number(), 0);
}

#[test]
fn each_production_has_a_clause_for_each_number_of_its_result() {
    let head = [mapping(1, 1), numbered_mapping(1, 3, 1), mapping(2, 2)].concat();
    let both = |name: u8| {
        let code = SAME[usize::from(name)];
        [clause(1, name, code), numbered_clause(1, name, 3, code)].concat()
    };
    let all: Vec<Vec<u8>> = (0..4).map(both).collect();
    let with = |last: Vec<u8>| vec![head.clone(), all[..3].concat(), last];
    numbers_of(vec![
        ("all", with(both(3)), 0),
        ("29 missing", with(clause(1, 3, SAME[3])), 6),
        ("23 missing", with(numbered_clause(1, 3, 3, SAME[3])), 6),
        ("a number too many", with([both(3), numbered_clause(1, 3, 4, SAME[3])].concat()), 6),
        (
            "another number",
            with([clause(1, 3, SAME[3]), numbered_clause(1, 3, 2, SAME[3])].concat()),
            6,
        ),
        ("of no production", with([both(3), numbered_clause(1, 4, 3, SAME[3])].concat()), 6),
        ("an empty code", with([clause(1, 3, SAME[3]), numbered_clause(1, 3, 3, &[])].concat()), 7),
        ("6 before 7", with(clause(1, 3, &[])), 6),
    ]);
}

/// The number of a check with a code for 1.1 (1) by number 3, where kind 1 has 3, and 4 to class 2.
fn number_of_code(code: &[u8]) -> u32 {
    let head = [mapping(1, 1), numbered_mapping(1, 3, 1), numbered_mapping(1, 4, 2), mapping(2, 2)];
    let by = |name: u8| {
        let own = SAME[usize::from(name)];
        let code = if name == 1 { code } else { own };
        let four = numbered_clause(1, name, 4, &[2, 0, 5]);
        [clause(1, name, own), numbered_clause(1, name, 3, code), four].concat()
    };
    let body = [head.concat(), (0..4).flat_map(by).collect()].concat();
    check_translation(&translation(&small(), &small(), &body)).number()
}

#[test]
fn uses_by_number_are_typed_by_that_number() {
    let chain = |links: usize, end: &[u8]| [[1, 1].repeat(links), end.to_vec()].concat();
    let cases: [(&str, Vec<u8>, u32); 14] = [
        ("the number of the kind", vec![4, 1, 3], 0),
        ("below a production", vec![1, 1, 4, 1, 3], 0),
        ("the class that 4 maps to", vec![1, 3, 4, 1, 4], 0),
        ("a block where 4 gives a value", vec![1, 1, 4, 1, 4], 7),
        ("a value where 3 gives a block", vec![1, 3, 4, 1, 3], 7),
        ("number 0", vec![4, 1, 0], 7),
        ("a number that the kind lacks", vec![4, 1, 5], 7),
        ("argument 0", vec![4, 0, 3], 7),
        ("an argument too many", vec![4, 2, 3], 7),
        ("cut off behind the argument", vec![4, 1], 7),
        ("bytes left over", vec![4, 1, 3, 0], 7),
        ("sign 05", vec![5, 1, 3], 7),
        ("level 16", chain(15, &[4, 1, 3]), 0),
        ("level 17", chain(16, &[4, 1, 3]), 7),
    ];
    for (what, code, number) in cases {
        assert_eq!(number_of_code(&code), number, "{what}");
    }
}

/// A pack with the small language as 0 and 1, bodies, and a term.
fn packed(bodies: &[Vec<u8>], term: &[u8]) -> Vec<u8> {
    pack(&[small(), small()], bodies, term)
}

/// The term of the body of a number.
fn of(body: u8) -> Vec<u8> {
    vec![0x50, 0x40, 0, 0x40, 1, body]
}

/// A sign before two terms.
fn sign(sign: u8, one: &[u8], other: &[u8]) -> Vec<u8> {
    [&[sign], one, other].concat()
}

#[test]
fn sums_fit_only_where_shared_kinds_have_the_same_numbers() {
    let bodies = [turning_body(&[3]), turning_body(&[4]), turning_body(&[]), turning_body(&[3, 4])];
    for one in 0..4 {
        for other in 0..4 {
            let pack = packed(&bodies, &sign(0x53, &of(one), &of(other)));
            assert_eq!(reduce_number(&pack), if one == other { 0 } else { 12 }, "{one} {other}");
        }
    }
    assert_eq!(reduced(&packed(&bodies, &sign(0x53, &of(3), &of(3)))), turning(&[3, 4]));
}

#[test]
fn sums_compare_classes_and_undefined_kinds_by_their_numbers_too() {
    let target = [class(2, 1, 9), class(4, 1, 9), production(1, 0, &[])].concat();
    let source = |name: u8| [class(2, 1, 9), production(1, name, &[2, 5])].concat();
    let body = |name: u8, others: &[(u8, u8, u8)]| {
        let of = |kind: u8| -> Vec<u8> {
            let others = others.iter().filter(|of| of.0 == kind);
            others.flat_map(|of| numbered_mapping(of.0, of.1, of.2)).collect()
        };
        let kinds = [mapping(1, 1), of(1), mapping(2, 2), of(2), mapping(5, 1), of(5)].concat();
        let one = if of(1).is_empty() { vec![] } else { numbered_clause(1, name, 6, &[1, 0]) };
        [kinds, clause(1, name, &[1, 0]), one].concat()
    };
    let number = |one: &[(u8, u8, u8)], other: &[(u8, u8, u8)]| {
        let term = sign(0x53, &[0x50, 0x40, 0, 0x40, 2, 0], &[0x50, 0x40, 1, 0x40, 2, 1]);
        let languages = [source(0), source(1), target.clone()];
        reduce_number(&pack(&languages, &[body(0, one), body(1, other)], &term))
    };
    assert_eq!(number(&[], &[]), 0);
    for kind in [(2, 6, 2), (5, 6, 1), (1, 6, 1)] {
        assert_eq!(number(&[kind], &[kind]), 0);
        assert_eq!(number(&[kind], &[]), 12, "{kind:?}");
        assert_eq!(number(&[], &[kind]), 12, "{kind:?}");
    }
    assert_eq!(number(&[(2, 6, 2)], &[(2, 6, 4)]), 12, "mapped differently");
    assert_eq!(number(&[(5, 6, 1)], &[(5, 7, 1)]), 12, "other numbers");
}

#[test]
fn sums_compare_codes_by_number() {
    let other = {
        let mut body = turning_body(&[3]);
        let last = body.len() - 1;
        body[last - 2..].copy_from_slice(&[3, 3, 1]);
        body
    };
    assert_eq!(other, turning_body(&[3]), "the last code is the identity's");
    let mut changed = turning_body(&[3]);
    let place = changed.windows(4).rposition(|bytes| bytes == [4, 2, 3, 4]).expect("a turned pair");
    changed[place + 1] = 1;
    let bodies = [turning_body(&[3]), changed];
    assert_eq!(reduce_number(&packed(&bodies, &of(1))), 0);
    assert_eq!(reduce_number(&packed(&bodies, &sign(0x53, &of(0), &of(1)))), 12);
}

#[test]
fn a_join_pairs_the_numbers() {
    let bodies = [turning_body(&[2, 15]), turning_body(&[1, 3])];
    let joined = reduced(&packed(&bodies, &sign(0x54, &of(0), &of(1))));
    for (inner, first) in [(0, TREE), (1, TURNED), (3, TURNED)] {
        for (outer, turns) in [(0, false), (2, true), (15, true)] {
            let found = run_by(&joined, 16 * inner + outer, &TREE);
            let expected = if (first == TURNED) != turns { TURNED } else { TREE };
            assert_eq!(found, (0, expected.to_vec()), "{inner} {outer}");
        }
    }
    for number in [1, 3, 14, 17, 32, 47, 49, 64, 255] {
        assert_eq!(run_by(&joined, number, &TREE).0, 14, "{number}");
    }
    let others = (16..=18).chain([31, 48, 50, 63]).filter(|number| *number != 17).chain([2, 15]);
    let mut numbers: Vec<u8> = others.collect();
    numbers.sort_unstable();
    let shown = numbers.iter().map(|&number| numbered_mapping(1, number, 1)).collect::<Vec<_>>();
    let mappings = [vec![mapping(1, 1)], shown, vec![mapping(2, 2)]].concat().concat();
    let start = 6 + 2 * small().len();
    assert_eq!(joined[start..start + mappings.len()], mappings);
}

#[test]
fn a_joined_code_uses_an_argument_by_16_times_its_number_and_that_of_the_run() {
    let source = [production(7, 0, &[7]), production(8, 0, &[7, 7])].concat();
    let inner = |code: &[u8]| {
        let head = [mapping(7, 1), numbered_mapping(7, 5, 1), mapping(8, 1)].concat();
        let seven = [clause(7, 0, &[3, 1]), numbered_clause(7, 0, 5, &[4, 1, 5])].concat();
        [head, seven, clause(8, 0, code)].concat()
    };
    let code_of = |code: &[u8]| {
        let bodies = [inner(code), turning_body(&[1])];
        let term = [0x54, 0x50, 0x40, 1, 0x40, 1, 1, 0x50, 0x40, 0, 0x40, 1, 0];
        let value = reduced(&pack(&[source.clone(), small()], &bodies, &term));
        let shown = listing(&pack(&[source.clone(), small()], &bodies, &term));
        assert_eq!(check_translation(&value).number(), 0);
        let line = |name: &str| {
            let mut lines = shown.lines();
            let line = lines.find_map(|line| line.strip_prefix(name));
            line.unwrap_or_else(|| panic!("{name} in {shown}")).to_string()
        };
        assert_eq!(line("7.0.80 "), "040150");
        assert_eq!(line("7.0.81 "), "040151");
        assert_eq!(line("7.0.1 "), "040101");
        [line("8.0 "), line("8.0.1 ")]
    };
    assert_eq!(code_of(&[3, 2]), ["0302", "040201"]);
    assert_eq!(code_of(&[4, 2, 5]), ["040250", "040251"]);
    assert_eq!(code_of(&[1, 2, 3, 1, 4, 2, 5]), ["01020301040250", "0102040251040101"]);
    assert_eq!(code_of(&[1, 3, 2, 0, 5]), ["0103020005", "0103020005"]);
}

#[test]
fn numbers_above_15_are_refused_before_what_does_not_fit() {
    let bodies =
        [turning_body(&[15]), turning_body(&[16]), turning_body(&[]), turning_body(&[255])];
    for (one, other, number) in
        [(0, 0, 0), (0, 2, 0), (1, 2, 26), (2, 1, 26), (1, 1, 26), (0, 3, 26), (3, 0, 26)]
    {
        let term = sign(0x54, &of(one), &of(other));
        assert_eq!(reduce_number(&packed(&bodies, &term)), number, "{one} {other}");
    }
    let wide = [class(2, 1, 10), small()[8..].to_vec()].concat();
    let languages = [small(), wide];
    let to_wide = |body| vec![0x50, 0x40, 0, 0x40, 1, body];
    let number = |one, other| {
        let term = sign(0x54, &to_wide(one), &to_wide(other));
        reduce_number(&pack(&languages, &bodies, &term))
    };
    assert_eq!((number(2, 2), number(0, 0)), (13, 13));
    assert_eq!((number(1, 2), number(2, 1)), (26, 26), "26 is before 13");
    let class_by_16 =
        [mapping(1, 1), mapping(2, 2), numbered_mapping(2, 16, 2), plain_clauses()].concat();
    let pack = packed(&[class_by_16, turning_body(&[])], &sign(0x54, &of(1), &of(0)));
    assert_eq!(reduce_number(&pack), 26, "of a class too");
}

#[test]
fn operands_are_worked_out_before_26() {
    let bodies = [turning_body(&[16]), turning_body(&[3]), turning_body(&[])];
    let unfit = sign(0x53, &of(1), &of(2));
    let unbound = [0x51, 3];
    for (one, other, number) in [
        (of(0), unfit.clone(), 12),
        (unfit.clone(), of(0), 12),
        (of(0), unbound.to_vec(), 10),
        (of(0), sign(0x54, &of(0), &of(2)), 26),
        (sign(0x54, &of(0), &of(2)), unfit, 26),
    ] {
        assert_eq!(reduce_number(&packed(&bodies, &sign(0x54, &one, &other))), number);
    }
}

#[test]
fn joins_of_joins_are_refused_once_a_paired_number_is_above_15() {
    let bodies = [turning_body(&[1]), turning_body(&[])];
    let (one, plain) = (of(0), of(1));
    let inner_paired = sign(0x54, &plain, &one);
    let outer_paired = sign(0x54, &one, &plain);
    let number = |term: &[u8]| reduce_number(&packed(&bodies, term));
    assert_eq!((number(&inner_paired), number(&outer_paired)), (0, 0));
    for term in [
        sign(0x54, &inner_paired, &plain),
        sign(0x54, &plain, &inner_paired),
        sign(0x54, &one, &inner_paired),
        sign(0x54, &sign(0x54, &one, &one), &plain),
    ] {
        assert_eq!(number(&term), 26, "{term:02X?}");
    }
    assert_eq!(number(&sign(0x54, &outer_paired, &plain)), 0);
    assert_eq!(number(&sign(0x54, &plain, &outer_paired)), 0);
    assert_eq!(number(&sign(0x54, &plain, &sign(0x54, &plain, &outer_paired))), 26);
    assert_eq!(number(&sign(0x54, &one, &outer_paired)), 0);
}

#[test]
fn regrouped_joins_are_equal_where_only_0_occurs() {
    let bodies = [turning_body(&[]), {
        let body = turning_body(&[]);
        let place = body.windows(4).position(|bytes| bytes == [3, 1, 3, 2]).expect("a pair");
        [&body[..place], &[3, 2, 3, 1], &body[place + 4..]].concat()
    }];
    for first in 0..2 {
        for second in 0..2 {
            for third in 0..2 {
                let (f, g, h) = (of(first), of(second), of(third));
                let left = sign(0x54, &sign(0x54, &f, &g), &h);
                let right = sign(0x54, &f, &sign(0x54, &g, &h));
                assert_eq!(reduced(&packed(&bodies, &left)), reduced(&packed(&bodies, &right)));
            }
        }
    }
}

#[test]
fn without_drops_all_numbers_of_what_goes() {
    let languages = [small(), small(), [production(1, 0, &[]), production(1, 1, &[1])].concat()];
    let bodies = [turning_body(&[1, 9])];
    let term = sign(0x52, &of(0), &[0x40, 2]);
    let shown = listing(&pack(&languages, &bodies, &term));
    let lines: Vec<&str> = shown.lines().skip(1).collect();
    assert_eq!(
        lines,
        [
            "1.2 010203010302",
            "1.2.1 0102040201040101",
            "1.2.9 0102040209040109",
            "1.3 01030301",
            "1.3.1 01030301",
            "1.3.9 01030301",
        ]
    );
    let all = sign(0x52, &of(0), &[0x40, 0]);
    let empty = translation(&[], &small(), &[]);
    assert_eq!(reduced(&pack(&languages, &bodies, &all)), empty);
    let class_by_3 =
        [mapping(1, 1), mapping(2, 2), numbered_mapping(2, 3, 2), plain_clauses()].concat();
    let minutes = [class(2, 1, 9), production(1, 3, &[2])].concat();
    let term = sign(0x52, &of(0), &[0x40, 2]);
    let value = reduced(&pack(&[small(), small(), minutes], &[class_by_3], &term));
    assert!(!fields_of(&value).contains(&0x28), "no kind is left that has a number but 0");
}

/// The tags of the fields of a file.
fn fields_of(mut file: &[u8]) -> Vec<u8> {
    let mut tags = vec![];
    while let [tag, high, low, rest @ ..] = file {
        tags.push(*tag);
        file = &rest[usize::from(u16::from_be_bytes([*high, *low]))..];
    }
    tags
}

#[test]
fn an_identity_has_number_0_only() {
    let bodies = [turning_body(&[1, 9])];
    let value = reduced(&packed(&bodies, &[&[0x55, 0x44], &of(0)[..]].concat()));
    assert_eq!(value, turning(&[]));
}

#[test]
fn values_with_numbers_keep_to_the_limit_of_bytes() {
    let many = |count: u8| turning_body(&(1..=count).collect::<Vec<u8>>());
    let length = |count| packed(&[many(count)], &of(0)).len();
    let count =
        (1..).find(|&count| 6 + 2 * small().len() + many(count).len() > 4096).expect("some");
    assert!(length(count) > 4096);
    assert_eq!(reduce_number(&packed(&[many(count - 1)], &of(0))), 0);
    assert_eq!(reduce_number(&packed(&[many(count)], &of(0))), 11);
    let twice = turning_body(&(1..=9).collect::<Vec<u8>>());
    let eleven = packed(&[twice], &sign(0x54, &of(0), &of(0)));
    assert_eq!(reduce_number(&eleven), 11, "100 numbers of each clause");
    let file = turning(&(1..=count).collect::<Vec<u8>>());
    assert_eq!(check_translation(&file).number(), 1);
}

#[test]
fn a_table_is_joined_onto_number_0_only() {
    let table =
        [load(1, 0, 1, &[]), load(1, 1, 0, &[1]), load(1, 2, 0, &[1, 1]), load(1, 3, 0, &[1])];
    let number = |translation: &[u8], table: &[u8], output: usize| {
        join_table(translation, table, &mut vec![0; output]).number()
    };
    assert_eq!(number(&turning(&[]), &table.concat(), 99), 0);
    assert_eq!(number(&turning(&[1]), &table.concat(), 99), 26);
    assert_eq!(number(&turning(&[1]), &[], 0), 26, "before 18 and 17");
    let class_by_3 = [mapping(1, 1), mapping(2, 2), numbered_mapping(2, 3, 2), plain_clauses()];
    let value = translation(&small(), &small(), &class_by_3.concat());
    assert_eq!(number(&value, &table.concat(), 99), 26);
    let wrong = translation(&small(), &small(), &turning_body(&[1])[..20]);
    assert_eq!(number(&wrong, &[], 0), 2);
}

/// Kind 3 is a list of rows: the last, or one more before the others.
fn lists() -> [Vec<u8>; 2] {
    let club =
        [production(1, 5, &[3, 1]), production(3, 1, &[2]), production(3, 2, &[2, 3])].concat();
    let target = [
        class(2, 1, 240),
        production(1, 1, &[2]),
        production(1, 2, &[1, 1]),
        production(1, 6, &[2]),
    ];
    [[class(2, 1, 240), club].concat(), target.concat()]
}

#[test]
fn a_list_that_is_acquired_is_released_in_reverse() {
    let body = [
        [mapping(1, 1), mapping(2, 2), mapping(3, 1), numbered_mapping(3, 1, 1)].concat(),
        clause(1, 5, &[1, 2, 3, 1, 4, 1, 1]),
        clause(3, 1, &[1, 1, 3, 1]),
        numbered_clause(3, 1, 1, &[1, 6, 3, 1]),
        clause(3, 2, &[1, 2, 1, 1, 3, 1, 3, 2]),
        numbered_clause(3, 2, 1, &[1, 2, 4, 2, 1, 1, 6, 3, 1]),
    ];
    let [source, target] = lists();
    let value = translation(&source, &target, &body.concat());
    assert_eq!(check_translation(&value).number(), 0);
    let list = [2, 0, 7, 2, 0, 8, 1, 0, 9];
    let mut output = [0; 99];
    let acquired = [2, 1, 0, 7, 2, 1, 0, 8, 1, 0, 9];
    let released = [2, 2, 6, 0, 9, 6, 0, 8, 6, 0, 7];
    for (number, expected) in [(0, acquired), (1, released)] {
        let outcome = run(&value, 3, number, &list, &mut output);
        assert_eq!((outcome.number(), &output[..outcome.length() as usize]), (0, &expected[..]));
    }
}
