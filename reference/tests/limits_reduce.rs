//! Reducing and running: each refusal, each limit on both sides, and likely misreadings.

mod build;

use build::*;
use reference::{reduce, run};

/// Kind 1 with names 0, 1 and 2 and as many arguments.
fn counting() -> Vec<u8> {
    [production(1, 0, &[]), production(1, 1, &[1]), production(1, 2, &[1, 1])].concat()
}

/// A body that maps the counting language with these codes.
fn counting_body(leaf: &[u8], one: &[u8], two: &[u8]) -> Vec<u8> {
    [mapping(1, 1), clause(1, 0, leaf), clause(1, 1, one), clause(1, 2, two)].concat()
}

/// The term for the first language into itself by a body.
fn endo(body: u8) -> Vec<u8> {
    vec![0x50, 0x40, 0, 0x40, 0, body]
}

/// The number of a term over one empty and one small language.
fn term_number(term: &[u8]) -> u32 {
    reduce_number(&pack(&[vec![], production(1, 0, &[])], &[vec![]], term))
}

/// Code of so many levels over the counting language.
fn chain(levels: usize, end: &[u8]) -> Vec<u8> {
    [&[1, 1].repeat(levels - 1), end].concat()
}

#[test]
fn terms_that_are_not_exactly_one() {
    assert_eq!(term_number(&[0x55, 0x40, 0]), 0);
    for term in [&[][..], &[0x55], &[0x55, 0x40], &[0x40, 0], &[0x55, 0x40, 0, 0], &[0x58, 0x40, 0]]
    {
        assert_eq!(term_number(term), 8);
    }
    for term in [&[0x55, 0x55, 0x40, 0][..], &[0x44, 0x55, 0x40, 0], &[0x55, 0x48, 0], &[0x4F]] {
        assert_eq!(term_number(term), 8);
    }
}

#[test]
fn constants_and_variables_of_a_term() {
    assert_eq!(term_number(&[0x55, 0x40, 1]), 0);
    assert_eq!(term_number(&[0x55, 0x40, 2]), 8);
    assert_eq!(term_number(&[0x50, 0x40, 0, 0x40, 0, 0]), 0);
    assert_eq!(term_number(&[0x50, 0x40, 0, 0x40, 0, 1]), 8);
    assert_eq!(term_number(&[0x51, 15]), 10);
    assert_eq!(term_number(&[0x51, 16]), 8);
    assert_eq!(term_number(&[0x55, 0x41, 15]), 10);
    assert_eq!(term_number(&[0x55, 0x41, 16]), 8);
    let identity = [0x55, 0x40, 0];
    assert_eq!(term_number(&[&[0x56, 15, 0x40, 0][..], &identity].concat()), 0);
    assert_eq!(term_number(&[&[0x56, 16, 0x40, 0][..], &identity].concat()), 8);
    assert_eq!(term_number(&[&[0x57, 15][..], &identity, &identity].concat()), 0);
    assert_eq!(term_number(&[&[0x57, 16][..], &identity, &identity].concat()), 8);
    assert_eq!(term_number(&[0x55, 0x46, 15, 0x40, 0, 0x41, 15]), 0);
    assert_eq!(term_number(&[0x55, 0x46, 16, 0x40, 0, 0x40, 0]), 8);
    assert_eq!(term_number(&[0x55, 0x47, 15, 0x55, 0x40, 0, 0x40, 0]), 0);
    assert_eq!(term_number(&[0x55, 0x47, 16, 0x55, 0x40, 0, 0x40, 0]), 8);
}

#[test]
fn levels_of_a_term() {
    let deep = |lets: usize| [[0x56, 0, 0x40, 0].repeat(lets), vec![0x55, 0x40, 0]].concat();
    assert_eq!(term_number(&deep(10)), 0);
    assert_eq!(term_number(&deep(11)), 8);
    let alternating = |pairs: usize| [[0x55, 0x44].repeat(pairs), vec![0x55, 0x40, 1]].concat();
    assert_eq!(term_number(&alternating(5)), 0);
    assert_eq!(term_number(&alternating(6)), 8);
}

#[test]
fn groups_and_numbers_of_fields_in_a_pack() {
    let (language, body, term) =
        (field(0x30, &[]), field(0x31, &[]), field(0x32, &[0x55, 0x40, 0]));
    let number = |fields: &[&Vec<u8>]| {
        reduce_number(&fields.iter().flat_map(|field| field.to_vec()).collect::<Vec<u8>>())
    };
    assert_eq!(number(&[&language, &body, &term]), 0);
    assert_eq!(number(&[&language, &term]), 0);
    assert_eq!(number(&[&term]), 8);
    assert_eq!(number(&[]), 2);
    assert_eq!(number(&[&language, &body]), 2);
    assert_eq!(number(&[&body, &language, &term]), 2);
    assert_eq!(number(&[&term, &language]), 2);
    assert_eq!(number(&[&language, &term, &term]), 2);
    assert_eq!(number(&[&language, &term, &body]), 2);
    assert_eq!(number(&[&language, &field(0x20, &[]), &term]), 2);
    let many = |languages: usize, bodies: usize| {
        let pack = [language.repeat(languages), body.repeat(bodies), term.clone()].concat();
        reduce_number(&pack)
    };
    assert_eq!(many(32, 32), 0);
    assert_eq!(many(33, 0), 2);
    assert_eq!(many(1, 33), 2);
}

#[test]
fn the_length_of_a_pack() {
    let filled = |bytes: usize| {
        let rest = bytes - pack(&[vec![]], &[clause(0, 0, &[])], &[0x55, 0x40, 0]).len();
        pack(&[vec![]], &[clause(0, 0, &vec![9; rest])], &[0x55, 0x40, 0])
    };
    assert_eq!(filled(32_768).len(), 32_768);
    assert_eq!(reduce_number(&filled(32_768)), 0);
    assert_eq!(reduce_number(&filled(32_769)), 1);
    assert_eq!(reduce_number(&[0; 32_768]), 2);
    assert_eq!(reduce_number(&[0x30, 4, 1]), 1);
    assert_eq!(reduce_number(&[0x30, 4, 0]), 2);
    assert_eq!(reduce_number(&[0x31, 4, 1]), 2);
    assert_eq!(reduce_number(&[0x32, 0, 0, 0x30, 4, 1]), 1);
    assert_eq!(reduce_number(&[0x20, 4, 1]), 2);
}

#[test]
fn refusals_of_constants_in_a_pack() {
    let term = [0x55, 0x40, 0];
    let good = production(1, 0, &[]);
    let order = [good.clone(), good.clone()].concat();
    let clash = [class(1, 0, 1), good.clone()].concat();
    assert_eq!(reduce_number(&pack(&[good.clone(), clash.clone()], &[], &term)), 4);
    assert_eq!(reduce_number(&pack(&[clash.clone(), order.clone()], &[], &term)), 3);
    assert_eq!(reduce_number(&pack(&[order, vec![1]], &[], &term)), 2);
    assert_eq!(
        reduce_number(&pack(
            std::slice::from_ref(&clash),
            &[[mapping(1, 1), mapping(1, 1)].concat()],
            &term
        )),
        3
    );
    let swapped = [clause(1, 1, &[]), mapping(1, 1)].concat();
    assert_eq!(reduce_number(&pack(std::slice::from_ref(&clash), &[swapped], &term)), 2);
    assert_eq!(reduce_number(&pack(std::slice::from_ref(&good), &[clause(1, 1, &[])], &term)), 0);
    assert_eq!(reduce_number(&pack(&[clash], &[], &[9])), 4);
}

#[test]
fn room_to_reduce() {
    let number = |term: &[u8], workspace: usize, output: usize| {
        let (mut workspace, mut output) = (vec![5; workspace], vec![6; output]);
        let outcome = reduce(&pack(&[vec![]], &[], term), &mut workspace, &mut output);
        if outcome.number() == 9 || outcome.number() == 8 {
            assert!(workspace.iter().all(|&byte| byte == 5));
            assert!(output.iter().all(|&byte| byte == 6));
        }
        outcome.number()
    };
    assert_eq!(number(&[0x55, 0x40, 0], 65_536, 4096), 0);
    assert_eq!(number(&[0x55, 0x40, 0], 65_535, 4096), 9);
    assert_eq!(number(&[0x55, 0x40, 0], 65_536, 4095), 9);
    assert_eq!(number(&[0x55, 0x40, 1], 0, 0), 8);
    assert_eq!(number(&[0x51, 0], 0, 0), 9);
    assert_eq!(number(&[0x51, 0], 65_536, 4096), 10);
}

#[test]
fn refusals_at_sign_50() {
    let number = |body: &[u8]| reduce_number(&pack(&[counting()], &[body.to_vec()], &endo(0)));
    let good = counting_body(&[1, 0], &[3, 1], &[3, 2]);
    assert_eq!(number(&good), 0);
    assert_eq!(number(&[]), 5);
    assert_eq!(number(&mapping(1, 1)), 6);
    assert_eq!(number(&counting_body(&[], &[3, 1], &[3, 2])), 7);
    assert_eq!(number(&counting_body(&chain(17, &[1, 0]), &[3, 1], &[3, 2])), 7);
    assert_eq!(number(&counting_body(&wide_code(3000), &[3, 1], &[3, 2])), 11);
    let fixed = translation(&counting(), &counting(), &counting_body(&[], &[3, 1], &[3, 2])).len();
    let even = counting_body(&wide_code((4096 - fixed) / 2), &[3, 1], &[3, 2]);
    assert_eq!(number(&even), 0);
    let more = counting_body(&wide_code((4096 - fixed) / 2 + 1), &[3, 1], &[3, 2]);
    assert_eq!(number(&more), 11);
    let worse = [counting_body(&wide_code(3000), &[3, 1], &[3, 2]), clause(1, 3, &[])].concat();
    assert_eq!(number(&worse), 6);
}

/// Code over the counting language with so many nodes and few levels.
fn wide_code(nodes: usize) -> Vec<u8> {
    match nodes {
        1 => vec![1, 0],
        2 => vec![1, 1, 1, 0],
        _ => {
            let left = (nodes - 1) / 2;
            [vec![1, 2], wide_code(left), wide_code(nodes - 1 - left)].concat()
        }
    }
}

#[test]
fn sums_of_languages() {
    let number = |left: Vec<u8>, right: Vec<u8>| {
        reduce_number(&pack(&[left, right], &[], &[0x55, 0x43, 0x40, 0, 0x40, 1]))
    };
    assert_eq!(number(class(1, 0, 1), class(1, 0, 1)), 0);
    assert_eq!(number(class(1, 0, 1), class(1, 0, 2)), 12);
    assert_eq!(number(class(1, 0, 1), production(1, 0, &[])), 12);
    assert_eq!(number(production(1, 0, &[]), class(1, 0, 1)), 12);
    assert_eq!(number(production(2, 0, &[1]), class(1, 0, 1)), 0);
    assert_eq!(number(production(1, 0, &[1]), production(1, 0, &[2])), 12);
    assert_eq!(number(production(1, 0, &[0]), production(1, 0, &[])), 12);
    let block = |start: usize, count: usize| -> Vec<u8> {
        (start..start + count).flat_map(|name| production(1, name as u8, &[])).collect()
    };
    let four = production(2, 0, &[2, 2, 2, 2]);
    let five = production(2, 0, &[2, 2, 2, 2, 2]);
    assert_eq!(number(block(0, 120), [block(100, 103), four.clone()].concat()), 0);
    assert_eq!(number(block(0, 120), [block(100, 103), five].concat()), 11);
    assert_eq!(number(block(0, 150), [block(151, 104), production(1, 255, &[])].concat()), 11);
    let misfit = [vec![0x12, 0, 3, 1, 0, 1], block(150, 105)].concat();
    assert_eq!(number(block(0, 150), misfit), 12);
}

#[test]
fn sums_of_translations() {
    let languages = [production(1, 0, &[]), production(1, 1, &[1])];
    let (leaf, link) = (clause(1, 0, &[1, 0]), clause(1, 1, &[3, 1]));
    let bodies = [
        [mapping(1, 1), leaf.clone()].concat(),
        [mapping(1, 1), link.clone()].concat(),
        [mapping(1, 1), clause(1, 1, &[1, 1, 3, 1])].concat(),
    ];
    let number = |term: &[u8]| reduce_number(&pack(&languages, &bodies, term));
    let (zero, one, two) =
        ([0x50, 0x40, 0, 0x40, 0, 0], [0x50, 0x40, 1, 0x40, 1, 1], [0x50, 0x40, 1, 0x40, 1, 2]);
    assert_eq!(number(&[&[0x53][..], &zero, &one].concat()), 0);
    assert_eq!(number(&[&[0x53][..], &one, &one].concat()), 0);
    assert_eq!(number(&[&[0x53][..], &one, &two].concat()), 12);
    let merged = reduced(&pack(&languages, &bodies, &[&[0x53][..], &one, &zero].concat()));
    let both = languages.concat();
    assert_eq!(merged, translation(&both, &both, &[mapping(1, 1), leaf, link].concat()));
}

#[test]
fn sums_with_shared_kinds_mapped_differently() {
    let languages =
        [production(1, 0, &[]), [production(1, 0, &[]), production(2, 0, &[])].concat()];
    let bodies = [
        [mapping(1, 1), clause(1, 0, &[1, 0])].concat(),
        [mapping(1, 2), clause(1, 0, &[1, 0])].concat(),
    ];
    let left = [0x50, 0x40, 0, 0x40, 1, 0];
    let right = [0x50, 0x40, 0, 0x40, 1, 1];
    let term = [&[0x53][..], &left, &right].concat();
    assert_eq!(reduce_number(&pack(&languages, &bodies, &term)), 12);
}

#[test]
fn sums_that_exceed_a_limit() {
    let source = |name: u8| production(3, name, &[]);
    let body =
        |name: u8, nodes: usize| [mapping(3, 1), clause(3, name, &wide_code(nodes))].concat();
    let number = |left: usize, right: usize| {
        let languages = [source(0), source(1), counting()];
        let bodies = [body(0, left), body(1, right)];
        let term = [0x53, 0x50, 0x40, 0, 0x40, 2, 0, 0x50, 0x40, 1, 0x40, 2, 1];
        reduce_number(&pack(&languages, &bodies, &term))
    };
    let fixed = 6 + 10 + counting().len() + 5 + 10;
    assert_eq!(number(1000, (4096 - fixed) / 2 - 1000), 0);
    assert_eq!(number(1000, (4096 - fixed) / 2 - 999), 11);
}

#[test]
fn without_has_no_condition() {
    let language = [class(2, 0, 9), production(1, 0, &[2]), production(1, 1, &[1])].concat();
    let other = [class(2, 0, 8), production(1, 0, &[1]), production(1, 1, &[1])].concat();
    let term = [0x55, 0x42, 0x40, 0, 0x40, 1];
    let result = reduced(&pack(&[language.clone(), other], &[], &term));
    let left = [class(2, 0, 9), production(1, 0, &[2])].concat();
    assert!(result.starts_with(&field(0x20, &left)));
}

#[test]
fn a_translation_without_keeps_mappings_of_kinds_still_in() {
    let language =
        [class(2, 0, 9), class(3, 0, 9), production(1, 0, &[2]), production(1, 1, &[])].concat();
    let gone = [class(2, 0, 9), class(3, 0, 9), production(1, 1, &[])].concat();
    let result = reduced(&pack(&[language.clone(), gone], &[], &[0x52, 0x55, 0x40, 0, 0x40, 1]));
    let body = [mapping(1, 1), mapping(2, 2), clause(1, 0, &[1, 0, 3, 1])].concat();
    assert_eq!(result, translation(&production(1, 0, &[2]), &language, &body));
}

#[test]
fn joins_that_do_not_fit() {
    let languages =
        [production(1, 0, &[]), [production(1, 0, &[]), production(1, 1, &[1])].concat()];
    let term = |outer: u8, inner: u8| [0x54, 0x55, 0x40, outer, 0x55, 0x40, inner];
    assert_eq!(reduce_number(&pack(&languages, &[], &term(1, 0))), 0);
    assert_eq!(reduce_number(&pack(&languages, &[], &term(0, 1))), 13);
    let classes = [class(1, 0, 1), class(1, 0, 2), class(2, 0, 2), production(1, 0, &[])];
    assert_eq!(reduce_number(&pack(&classes, &[], &term(0, 0))), 0);
    assert_eq!(reduce_number(&pack(&classes, &[], &term(1, 0))), 0);
    assert_eq!(reduce_number(&pack(&classes, &[], &term(0, 1))), 13);
    assert_eq!(reduce_number(&pack(&classes, &[], &term(2, 0))), 13);
    assert_eq!(reduce_number(&pack(&classes, &[], &term(3, 0))), 13);
}

#[test]
fn a_join_takes_classes_that_lie_inside_those_of_the_first() {
    for (low, high, _, inside) in RANGES {
        let languages = [class(2, 5, 9), class(2, low, high)];
        let term = [0x54, 0x55, 0x40, 0, 0x55, 0x40, 1];
        let (number, result) = reduce_answer(&pack(&languages, &[], &term));
        assert_eq!(number, if inside { 0 } else { 13 }, "{low} to {high}");
        if inside {
            assert_eq!(result, translation(&languages[1], &languages[0], &mapping(2, 2)));
        }
    }
}

#[test]
fn values_write_steps_of_1_in_length_5() {
    let plain = class(2, 5, 9);
    let written = stepped_class(2, 5, 9, 1);
    let identity = translation(&plain, &plain, &mapping(2, 2));
    let languages = [written, plain.clone(), vec![]];
    let value = |term: &[u8]| reduced(&pack(&languages, &[mapping(2, 2), vec![]], term));
    assert_eq!(value(&[0x55, 0x40, 0]), identity);
    assert_eq!(value(&[0x50, 0x40, 0, 0x40, 0, 0]), identity);
    assert_eq!(value(&[0x50, 0x40, 0, 0x40, 1, 0]), identity);
    assert_eq!(value(&[0x50, 0x40, 2, 0x40, 0, 1]), translation(&[], &plain, &[]));
    assert_eq!(value(&[0x56, 0, 0x40, 0, 0x55, 0x41, 0]), identity);
    assert_eq!(value(&[0x55, 0x43, 0x40, 0, 0x40, 1]), identity);
    assert_eq!(value(&[0x55, 0x42, 0x40, 0, 0x40, 2]), identity);
    assert_eq!(value(&[0x55, 0x42, 0x40, 0, 0x40, 1]), translation(&[], &[], &[]));
    assert_eq!(value(&[0x55, 0x42, 0x40, 1, 0x40, 0]), translation(&[], &[], &[]));
    assert_eq!(value(&[0x52, 0x55, 0x40, 1, 0x40, 0]), translation(&[], &plain, &[]));
    assert_eq!(value(&[0x53, 0x55, 0x40, 0, 0x55, 0x40, 1]), identity);
    assert_eq!(value(&[0x54, 0x55, 0x40, 0, 0x55, 0x40, 1]), identity);
    assert_eq!(value(&[0x54, 0x55, 0x40, 1, 0x55, 0x40, 0]), identity);
}

#[test]
fn other_steps_are_written() {
    let fives = stepped_class(2, 100, 204, 5);
    let value = reduced(&pack(std::slice::from_ref(&fives), &[], &[0x55, 0x40, 0]));
    assert_eq!(value, translation(&fives, &fives, &mapping(2, 2)));
}

#[test]
fn equal_ranges_have_equal_steps() {
    let pairs = [
        (stepped_class(2, 5, 9, 2), stepped_class(2, 5, 9, 2), true),
        (stepped_class(2, 5, 9, 2), stepped_class(2, 5, 9, 4), false),
        (stepped_class(2, 5, 9, 2), class(2, 5, 9), false),
        (stepped_class(2, 5, 9, 1), class(2, 5, 9), true),
        (stepped_class(2, 5, 9, 2), stepped_class(2, 5, 10, 2), false),
        (stepped_class(2, 5, 5, 9), class(2, 5, 5), false),
    ];
    for (left, right, equal) in pairs {
        let rest = if equal { vec![] } else { left.clone() };
        let languages = [left, right];
        let value = |term: &[u8]| reduce_answer(&pack(&languages, &[], term));
        let sum = if equal { 0 } else { 12 };
        assert_eq!(value(&[0x55, 0x43, 0x40, 0, 0x40, 1]).0, sum, "{languages:?}");
        assert_eq!(value(&[0x53, 0x55, 0x40, 1, 0x55, 0x40, 0]).0, sum, "{languages:?}");
        let kept = if equal { vec![] } else { mapping(2, 2) };
        let without = value(&[0x55, 0x42, 0x40, 0, 0x40, 1]);
        assert_eq!(without, (0, translation(&rest, &rest, &kept)), "{languages:?}");
    }
}

#[test]
fn a_join_takes_each_legal_value() {
    let number = |outer: Vec<u8>, inner: Vec<u8>| {
        reduce_number(&pack(&[outer, inner], &[], &[0x54, 0x55, 0x40, 0, 0x55, 0x40, 1]))
    };
    let class = |low, high, step| stepped_class(2, low, high, step);
    assert_eq!(number(class(100, 200, 5), class(110, 190, 10)), 0);
    assert_eq!(number(class(100, 200, 5), class(110, 204, 10)), 0);
    assert_eq!(number(class(100, 200, 5), class(110, 210, 10)), 13);
    assert_eq!(number(class(100, 200, 5), class(110, 190, 4)), 13);
    assert_eq!(number(class(100, 200, 5), class(112, 190, 5)), 13);
    assert_eq!(number(class(100, 200, 1), class(100, 200, 5)), 0);
    assert_eq!(number(class(100, 200, 5), class(100, 200, 1)), 13);
    assert_eq!(number(class(5, 5, 9), class(5, 5, 1)), 0);
    assert_eq!(number(class(5, 5, 1), class(5, 5, 9)), 0);
    assert_eq!(number(class(0, 65_535, 5), class(0, 65_535, 65_535)), 0);
    assert_eq!(number(class(0, 65_535, 65_535), class(0, 65_535, 5)), 13);
}

/// Four classes of step 1, with their steps written or not.
fn four_classes(written: bool) -> Vec<u8> {
    let class = |kind| if written { stepped_class(kind, 0, 9, 1) } else { class(kind, 0, 9) };
    (10..14).flat_map(class).collect()
}

/// So many productions of five bytes.
fn five_bytes_each(start: u8, count: u8) -> Vec<u8> {
    (start..start + count).flat_map(|name| production(1, name, &[])).collect()
}

#[test]
fn a_constant_at_its_limit_becomes_shorter() {
    let constant = |written: bool, arguments: usize| {
        let last = production(2, 0, &vec![2; arguments]);
        [four_classes(written), five_bytes_each(0, 195), last].concat()
    };
    assert_eq!((constant(true, 4).len(), constant(false, 4).len()), (1024, 1016));
    let (number, value) = reduce_answer(&pack(&[constant(true, 4)], &[], &[0x55, 0x40, 0]));
    assert_eq!(number, 0);
    assert!(value.starts_with(&field(0x20, &constant(false, 4))));
    assert_eq!(reduce_number(&pack(&[constant(true, 5)], &[], &[0x55, 0x40, 0])), 1);
}

#[test]
fn a_sum_is_measured_without_steps_of_1() {
    let left = [four_classes(true), five_bytes_each(0, 100)].concat();
    let number = |arguments: usize, term: &[u8]| {
        let last = production(2, 0, &vec![2; arguments]);
        let right = [four_classes(true), five_bytes_each(100, 96), last].concat();
        assert_eq!(left.len() + right.len() - 40, 1025 + arguments);
        reduce_number(&pack(&[left.clone(), right, vec![]], &[vec![]], term))
    };
    let from_empty = |language: u8| vec![0x50, 0x40, 2, 0x40, language, 0];
    let targets = [vec![0x53], from_empty(0), from_empty(1)].concat();
    for term in [&[0x55, 0x43, 0x40, 0, 0x40, 1][..], &[0x53, 0x55, 0x40, 0, 0x55, 0x40, 1]] {
        assert_eq!(number(7, term), 0);
        assert_eq!(number(8, term), 11);
    }
    assert_eq!(number(7, &targets), 0);
    assert_eq!(number(8, &targets), 11);
}

#[test]
fn a_body_is_measured_without_steps_of_1() {
    let target = |written: bool| [four_classes(written), counting()].concat();
    let body = |nodes: usize| [mapping(3, 1), clause(3, 0, &wide_code(nodes))].concat();
    let source = production(3, 0, &[]);
    let fixed = translation(&source, &target(false), &[mapping(3, 1), clause(3, 0, &[])].concat());
    let nodes = (4096 - fixed.len()) / 2;
    let number = |written: bool, nodes: usize| {
        let languages = [source.clone(), target(written)];
        reduce_number(&pack(&languages, &[body(nodes)], &[0x50, 0x40, 0, 0x40, 1, 0]))
    };
    assert_eq!([number(true, nodes), number(false, nodes)], [0, 0]);
    assert_eq!([number(true, nodes + 1), number(false, nodes + 1)], [11, 11]);
}

#[test]
fn a_class_that_is_missing_in_the_first_is_refused() {
    let with_class = [class(2, 5, 9), production(1, 0, &[2])].concat();
    let without_class = production(1, 0, &[2]);
    let term = |outer: u8, inner: u8| [0x54, 0x55, 0x40, outer, 0x55, 0x40, inner];
    let languages = [with_class, without_class];
    assert_eq!(reduce_number(&pack(&languages, &[], &term(1, 0))), 13);
    assert_eq!(reduce_number(&pack(&languages, &[], &term(0, 1))), 0);
}

#[test]
fn productions_of_a_join_are_equal_as_before() {
    let narrow = [class(2, 5, 6), production(1, 0, &[2])].concat();
    let wide = [class(2, 5, 9), production(1, 0, &[2, 2])].concat();
    let term = [0x54, 0x55, 0x40, 1, 0x55, 0x40, 0];
    assert_eq!(reduce_number(&pack(&[narrow, wide], &[], &term)), 13);
}

#[test]
fn sums_and_without_take_equal_ranges_only() {
    for (low, high, equal, _) in RANGES {
        let languages = [class(2, 5, 9), class(2, low, high)];
        let value = |term: &[u8]| reduce_answer(&pack(&languages, &[], term));
        let sum = if equal { 0 } else { 12 };
        assert_eq!(value(&[0x55, 0x43, 0x40, 0, 0x40, 1]).0, sum, "{low} to {high}");
        assert_eq!(value(&[0x55, 0x43, 0x40, 1, 0x40, 0]).0, sum, "{low} to {high}");
        assert_eq!(value(&[0x53, 0x55, 0x40, 0, 0x55, 0x40, 1]).0, sum, "{low} to {high}");
        let rest = if equal { vec![] } else { class(2, 5, 9) };
        let kept = if equal { vec![] } else { mapping(2, 2) };
        let (number, result) = value(&[0x55, 0x42, 0x40, 0, 0x40, 1]);
        assert_eq!((number, result), (0, translation(&rest, &rest, &kept)), "{low} to {high}");
        let (number, result) = value(&[0x52, 0x55, 0x40, 0, 0x40, 1]);
        assert_eq!((number, result), (0, translation(&rest, &class(2, 5, 9), &kept)));
    }
}

#[test]
fn sums_of_targets_take_equal_ranges_only() {
    for (low, high, equal, _) in RANGES {
        let languages = [class(2, 5, 9), class(2, low, high), class(2, 7, 7)];
        let term = [0x53, 0x50, 0x40, 2, 0x40, 0, 0, 0x50, 0x40, 2, 0x40, 1, 0];
        let inside = low <= 7 && 7 <= high;
        let expected = if !inside { 5 } else { u32::from(!equal) * 12 };
        let number = reduce_number(&pack(&languages, &[mapping(2, 2)], &term));
        assert_eq!(number, expected, "{low} to {high}");
    }
}

/// A language with a class 2 of this range, and 1.0 (2) and 1.1 (1 1).
fn blocks(low: u16, high: u16) -> Vec<u8> {
    [class(2, low, high), production(1, 0, &[2]), production(1, 1, &[1, 1])].concat()
}

/// A body over the blocks that swaps two and doubles one with a token.
fn block_body(token: u8) -> Vec<u8> {
    let one = [1, 1, 1, 0, 3, 1, 1, 0, 2, 0, token];
    let two = [1, 1, 3, 2, 3, 1];
    [mapping(1, 1), mapping(2, 2), clause(1, 0, &one), clause(1, 1, &two)].concat()
}

#[test]
fn translations_that_widen_are_joined_onto_others_that_widen() {
    let languages = [blocks(6, 7), blocks(5, 8), blocks(4, 8), blocks(4, 9)];
    let bodies = [block_body(8), block_body(9)];
    let inner = [0x50, 0x40, 0, 0x40, 1, 0];
    let outer = [0x50, 0x40, 2, 0x40, 3, 1];
    let joined = reduced(&pack(&languages, &bodies, &[&[0x54][..], &outer, &inner].concat()));
    let below = |end: &[u8]| [&[1, 1, 1, 0][..], end, &[1, 0, 2, 0, 9]].concat();
    let one = [&[1, 1][..], &below(&[2, 0, 8]), &below(&[3, 1])].concat();
    let clauses = [clause(1, 0, &one), clause(1, 1, &[1, 1, 3, 1, 3, 2])].concat();
    let body = [mapping(1, 1), mapping(2, 2), clauses].concat();
    assert_eq!(joined, translation(&languages[0], &languages[3], &body));
    let mut output = vec![0; 15];
    let outcome = run(&joined, 1, 0, &[0, 0, 7], &mut output);
    assert_eq!((outcome.number(), outcome.length()), (0, 15));
    assert_eq!(output, [1, 1, 0, 0, 8, 0, 0, 9, 1, 0, 0, 7, 0, 0, 9]);
    assert_eq!(run(&joined, 1, 0, &[0, 0, 8], &mut output).number(), 15);
}

#[test]
fn a_join_of_three_that_widen_at_each_step() {
    let languages = [blocks(6, 6), blocks(6, 7), blocks(5, 7), blocks(5, 8), blocks(5, 9)];
    let identity = |language: u8| vec![0x55, 0x40, language];
    let number = |term: &[Vec<u8>]| reduce_number(&pack(&languages, &[], &term.concat()));
    let join = || vec![0x54];
    assert_eq!(number(&[join(), identity(4), join(), identity(2), identity(0)]), 0);
    assert_eq!(number(&[join(), join(), identity(4), identity(2), identity(0)]), 0);
    assert_eq!(number(&[join(), identity(3), join(), identity(1), identity(0)]), 0);
    assert_eq!(number(&[join(), identity(1), join(), identity(2), identity(0)]), 13);
    assert_eq!(number(&[join(), join(), identity(1), identity(2), identity(0)]), 13);
}

#[test]
fn a_join_keeps_arguments_and_runs_the_second_first() {
    let first = counting_body(&[1, 1, 1, 0], &[1, 2, 3, 1, 3, 1], &[1, 2, 3, 2, 3, 1]);
    let second = counting_body(&[1, 0], &[1, 1, 1, 1, 3, 1], &[1, 2, 1, 0, 3, 2]);
    let term = [vec![0x54], endo(0), endo(1)].concat();
    let result = reduced(&pack(&[counting()], &[first, second], &term));
    let one = [1, 2, 1, 2, 3, 1, 3, 1, 1, 2, 3, 1, 3, 1];
    let expected = counting_body(&[1, 1, 1, 0], &one, &[1, 2, 3, 2, 1, 1, 1, 0]);
    assert_eq!(result, translation(&counting(), &counting(), &expected));
}

#[test]
fn levels_of_a_join() {
    let number = |outer: &[u8], inner: usize| {
        let first = counting_body(&[1, 0], outer, &[3, 1]);
        let second = counting_body(&chain(inner, &[1, 0]), &[3, 1], &[3, 1]);
        reduce_number(&pack(
            &[counting()],
            &[first, second],
            &[vec![0x54], endo(0), endo(1)].concat(),
        ))
    };
    assert_eq!(number(&[1, 1, 1, 1, 1, 1, 3, 1], 6), 0);
    assert_eq!(number(&[1, 1, 1, 1, 1, 1, 3, 1], 7), 11);
    assert_eq!(number(&[3, 1], 16), 0);
    assert_eq!(number(&[1, 0], 16), 0);
}

#[test]
fn a_token_of_a_join_is_no_level() {
    let language =
        [class(2, 5, 9), production(1, 1, &[1]), production(1, 3, &[2]), production(1, 4, &[1])];
    let source = [class(2, 5, 9), production(3, 0, &[2]), production(3, 1, &[4])].concat();
    let number = |token: &[u8], links: usize, end: &[u8]| {
        let outer = [
            mapping(1, 1),
            mapping(2, 2),
            clause(1, 1, &[1, 1, 1, 1, 3, 1]),
            clause(1, 3, token),
            clause(1, 4, &[3, 1]),
        ];
        let code = [&[1, 1].repeat(links), end].concat();
        let inner = [
            mapping(2, 2),
            mapping(3, 1),
            mapping(4, 1),
            clause(3, 0, &code),
            clause(3, 1, &[1, 4, 3, 1]),
        ];
        let term = [0x54, 0x50, 0x40, 0, 0x40, 0, 0, 0x50, 0x40, 1, 0x40, 0, 1];
        let languages = [language.concat(), source.clone()];
        reduce_number(&pack(&languages, &[outer.concat(), inner.concat()], &term))
    };
    let kept: &[u8] = &[1, 3, 3, 1];
    assert_eq!(number(kept, 7, &[1, 3, 2, 0, 5]), 0);
    assert_eq!(number(kept, 7, &[1, 3, 3, 1]), 0);
    assert_eq!(number(kept, 8, &[1, 3, 2, 0, 5]), 11);
    let deeper: &[u8] = &[1, 4, 1, 3, 3, 1];
    assert_eq!(number(deeper, 7, &[1, 3, 2, 0, 5]), 0);
    assert_eq!(number(deeper, 7, &[1, 3, 3, 1]), 11);
    assert_eq!(number(deeper, 6, &[1, 3, 3, 1]), 0);
    let dropped: &[u8] = &[1, 4, 1, 3, 2, 0, 9];
    assert_eq!(number(dropped, 7, &[1, 3, 3, 1]), 0);
    let longer: &[u8] = &[1, 4, 1, 4, 1, 3, 3, 1];
    assert_eq!(number(longer, 7, &[1, 3, 2, 0, 5]), 11);
    assert_eq!(number(longer, 6, &[1, 3, 2, 0, 5]), 0);
}

#[test]
fn a_join_that_is_a_token_alone_has_no_level() {
    let language = [class(2, 5, 9), production(1, 0, &[])].concat();
    let outer = [mapping(1, 2), mapping(2, 2), clause(1, 0, &[2, 0, 6])].concat();
    let inner = [mapping(1, 2), mapping(2, 2), clause(1, 0, &[2, 0, 7])].concat();
    let (languages, bodies) = ([language.clone()], [outer.clone(), inner.clone()]);
    let value = |first: u8, second: u8| {
        reduced(&pack(&languages, &bodies, &[vec![0x54], endo(first), endo(second)].concat()))
    };
    assert_eq!(value(0, 1), translation(&language, &language, &inner));
    assert_eq!(value(1, 0), translation(&language, &language, &outer));
}

#[test]
fn bytes_of_a_join_are_measured_without_overflow() {
    let many = [[1, 2, 3, 1].repeat(15), vec![3, 1]].concat();
    let first = counting_body(&[1, 0], &many, &[3, 1]);
    let dropping = counting_body(&[1, 0], &many, &[3, 2]);
    let deep = counting_body(
        &[[1, 2].to_vec(), chain(15, &[1, 0]), vec![1, 0]].concat(),
        &[3, 1],
        &[3, 1],
    );
    let number = |first: &Vec<u8>| {
        let bodies = [first.clone(), deep.clone()];
        reduce_number(&pack(&[counting()], &bodies, &[vec![0x54], endo(0), endo(1)].concat()))
    };
    assert_eq!(number(&first), 11);
    assert_eq!(number(&dropping), 0);
}

#[test]
fn regrouped_joins_may_differ_in_their_limits() {
    let longer = counting_body(&[1, 0], &chain(9, &[3, 1]), &[3, 1]);
    let forgetting = counting_body(&[1, 0], &[1, 0], &[1, 0]);
    let bodies = [forgetting, longer];
    let left = [vec![0x54, 0x54], endo(0), endo(1), endo(1)].concat();
    let right = [vec![0x54], endo(0), vec![0x54], endo(1), endo(1)].concat();
    assert_eq!(reduce_number(&pack(&[counting()], &bodies, &left)), 0);
    assert_eq!(reduce_number(&pack(&[counting()], &bodies, &right)), 11);
}

#[test]
fn lets_and_variables() {
    let languages = [production(1, 0, &[]), production(2, 0, &[])];
    let value = |term: &[u8]| reduced(&pack(&languages, &[], term));
    let number = |term: &[u8]| reduce_number(&pack(&languages, &[], term));
    let zero = value(&[0x55, 0x40, 0]);
    let one = value(&[0x55, 0x40, 1]);
    assert_eq!(value(&[0x56, 0, 0x40, 0, 0x56, 0, 0x40, 1, 0x55, 0x41, 0]), one);
    assert_eq!(value(&[0x55, 0x46, 0, 0x40, 0, 0x46, 1, 0x40, 1, 0x41, 0]), zero);
    let sum = value(&[0x55, 0x43, 0x40, 0, 0x40, 1]);
    assert_eq!(value(&[0x56, 0, 0x40, 0, 0x55, 0x43, 0x46, 0, 0x40, 1, 0x41, 0, 0x41, 0]), sum);
    assert_eq!(value(&[0x56, 0, 0x40, 0, 0x57, 0, 0x55, 0x40, 1, 0x55, 0x41, 0]), zero);
    assert_eq!(value(&[0x57, 3, 0x55, 0x40, 0, 0x51, 3]), zero);
    assert_eq!(value(&[0x55, 0x47, 3, 0x55, 0x40, 1, 0x44, 0x51, 3]), one);
    assert_eq!(number(&[0x57, 0, 0x51, 1, 0x55, 0x40, 0]), 10);
    assert_eq!(number(&[0x56, 0, 0x41, 0, 0x55, 0x40, 0]), 10);
    assert_eq!(number(&[0x56, 0, 0x40, 0, 0x51, 0]), 10);
    assert_eq!(number(&[0x53, 0x56, 0, 0x40, 0, 0x55, 0x41, 0, 0x55, 0x41, 0]), 10);
}

#[test]
fn the_first_refusal_ends_it() {
    let languages = [production(1, 0, &[]), production(1, 0, &[1])];
    let number = |term: &[u8]| reduce_number(&pack(&languages, &[vec![]], term));
    let misfit = [0x55, 0x43, 0x40, 0, 0x40, 1];
    let unbound = [0x51, 0];
    let wrong = [0x50, 0x40, 0, 0x40, 0, 0];
    assert_eq!(number(&[&[0x53][..], &misfit, &unbound].concat()), 12);
    assert_eq!(number(&[&[0x53][..], &unbound, &misfit].concat()), 10);
    assert_eq!(number(&[&[0x54][..], &wrong, &misfit].concat()), 5);
    assert_eq!(number(&[&[0x54][..], &misfit, &wrong].concat()), 12);
    assert_eq!(number(&[0x52, 0x51, 0, 0x43, 0x40, 0, 0x40, 1]), 10);
    assert_eq!(number(&[0x50, 0x43, 0x40, 0, 0x40, 1, 0x41, 0, 0]), 12);
}

/// Runs a body over the counting language and gives number and result.
fn ran(body: &[u8], tree: &[u8], output: usize) -> (u32, Vec<u8>) {
    let mut output = vec![0xCC; output];
    let outcome = run(&translation(&counting(), &counting(), body), 1, 0, tree, &mut output);
    (outcome.number(), output[..outcome.length() as usize].to_vec())
}

#[test]
fn lengths_of_a_run_do_not_wrap() {
    let many = [[1, 2, 3, 1].repeat(15), vec![3, 1]].concat();
    let tree = [vec![2], vec![1; 60], vec![0], vec![0]].concat();
    assert_eq!(ran(&counting_body(&[1, 0], &many, &[3, 1]), &tree, 100).0, 17);
    assert_eq!(ran(&counting_body(&[1, 0], &many, &[3, 2]), &tree, 100), (0, vec![0]));
    assert_eq!(ran(&counting_body(&[1, 0], &many, &[3, 2]), &tree, 0).0, 17);
    let four = [1, 2, 1, 2, 3, 1, 3, 1, 1, 2, 3, 1, 3, 1];
    for links in 30..=33 {
        let tree = [vec![1; links], vec![0]].concat();
        assert_eq!(ran(&counting_body(&[1, 0], &four, &[3, 1]), &tree, 100).0, 17);
    }
}

#[test]
fn levels_of_a_run_are_those_of_productions() {
    let language = [class(2, 5, 9), production(1, 1, &[1]), production(1, 3, &[2])].concat();
    let body = [mapping(1, 1), mapping(2, 2), clause(1, 1, &[3, 1]), clause(1, 3, &[1, 3, 3, 1])];
    let value = translation(&language, &language, &body.concat());
    let number = |links: usize, end: &[u8], output: usize| {
        run(&value, 1, 0, &[&vec![1; links], end].concat(), &mut vec![0; output]).number()
    };
    assert_eq!(number(63, &[3, 0, 5], 3), 0);
    assert_eq!(number(63, &[3, 0, 5], 2), 17);
    assert_eq!(number(63, &[3, 0, 4], 2), 15);
    assert_eq!(number(64, &[3, 0, 5], 3), 16);
    assert_eq!(number(64, &[], 3), 16);
}

#[test]
fn arguments_swapped_doubled_and_dropped() {
    let tree = [2, 1, 0, 2, 0, 1, 0];
    let run_with = |two: &[u8]| ran(&counting_body(&[1, 0], &[1, 1, 3, 1], two), &tree, 50).1;
    assert_eq!(run_with(&[1, 2, 3, 2, 3, 1]), [2, 2, 1, 0, 0, 1, 0]);
    assert_eq!(run_with(&[1, 2, 3, 2, 3, 2]), [2, 2, 1, 0, 1, 0, 2, 1, 0, 1, 0]);
    assert_eq!(run_with(&[1, 1, 3, 1]), [1, 1, 0]);
    assert_eq!(run_with(&[3, 2]), [1, 0]);
}

#[test]
fn a_result_may_be_deeper_than_a_tree_handed_in() {
    let deeper = counting_body(&[1, 0], &[1, 1, 1, 1, 3, 1], &[3, 1]);
    let tree = [vec![1; 63], vec![0]].concat();
    let (number, result) = ran(&deeper, &tree, 1000);
    assert_eq!((number, result.len()), (0, 127));
    assert_eq!(ran(&deeper, &result, 1000).0, 16);
    let term = [vec![0x54], endo(0), endo(0)].concat();
    let joined = reduced(&pack(&[counting()], &[deeper], &term));
    let mut output = vec![0; 1000];
    let outcome = run(&joined, 1, 0, &tree, &mut output);
    assert_eq!((outcome.number(), outcome.length()), (0, 253));
}
