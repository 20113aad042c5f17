//! The checks of languages, trees and translations: each refusal, and each limit on both sides.

mod build;

use build::*;
use reference::{check_language, check_translation, check_tree, run};

/// The number of checking a language.
fn language_number(language: &[u8]) -> u32 {
    let outcome = check_language(language);
    assert_eq!(outcome.length(), 0);
    outcome.number()
}

/// The number of checking a translation.
fn translation_number(translation: &[u8]) -> u32 {
    let outcome = check_translation(translation);
    assert_eq!(outcome.length(), 0);
    outcome.number()
}

/// A language of exactly so many bytes: productions without arguments and one to fill up.
fn language_of(bytes: usize) -> Vec<u8> {
    let last = 5 + bytes % 5;
    let count = (bytes - last) / 5;
    let keys = (0..count).map(|place| ((place / 256) as u8, place as u8));
    let mut language: Vec<u8> = keys.flat_map(|(kind, name)| production(kind, name, &[])).collect();
    language.extend(production(30, 0, &vec![30; last - 5]));
    assert_eq!(language.len(), bytes);
    language
}

#[test]
fn the_length_of_a_language() {
    assert_eq!(language_number(&[]), 0);
    assert_eq!(language_number(&language_of(1024)), 0);
    assert_eq!(language_number(&language_of(1025)), 1);
    assert_eq!(language_number(&[0; 1024]), 2);
    assert_eq!(language_number(&[0; 1025]), 1);
}

#[test]
fn broken_fields_of_a_language() {
    assert_eq!(language_number(&[0x11]), 2);
    assert_eq!(language_number(&[0x12, 0]), 2);
    assert_eq!(language_number(&[0x12, 0, 2]), 2);
    assert_eq!(language_number(&[0x12, 0, 2, 0]), 2);
    assert_eq!(language_number(&[0x12, 0, 2, 0, 0]), 0);
    assert_eq!(language_number(&[0x12, 0, 1, 0]), 2);
    assert_eq!(language_number(&[0x12, 0, 0]), 2);
    assert_eq!(language_number(&[0x12, 1, 2, 0, 0]), 2);
    assert_eq!(language_number(&[0x13, 0, 2, 0, 0]), 2);
    assert_eq!(language_number(&[0x11, 0, 4, 0, 0, 0, 0]), 2);
    assert_eq!(language_number(&[0x11, 0, 6, 0, 0, 0, 0, 0, 0]), 2);
    assert_eq!(language_number(&[0x12, 0, 2, 0, 0, 0]), 2);
}

#[test]
fn ranges_in_a_language() {
    assert_eq!(language_number(&class(31, 7, 7)), 0);
    assert_eq!(language_number(&class(32, 7, 7)), 2);
    assert_eq!(language_number(&class(0, 0, 65_535)), 0);
    assert_eq!(language_number(&class(0, 256, 255)), 2);
    assert_eq!(language_number(&production(31, 255, &[31; 8])), 0);
    assert_eq!(language_number(&production(31, 255, &[31; 9])), 2);
    assert_eq!(language_number(&production(32, 0, &[])), 2);
    assert_eq!(language_number(&production(0, 0, &[0, 32])), 2);
}

#[test]
fn steps_in_a_language() {
    assert_eq!(language_number(&stepped_class(31, 5, 9, 1)), 0);
    assert_eq!(language_number(&stepped_class(31, 5, 9, 65_535)), 0);
    assert_eq!(language_number(&stepped_class(31, 5, 9, 256)), 0);
    assert_eq!(language_number(&stepped_class(31, 5, 9, 0)), 2);
    assert_eq!(language_number(&stepped_class(31, 7, 7, 0)), 2);
    assert_eq!(language_number(&stepped_class(31, 9, 5, 1)), 2);
    assert_eq!(language_number(&stepped_class(32, 5, 9, 1)), 2);
    assert_eq!(language_number(&stepped_class(31, 0, 65_535, 65_535)), 0);
    let whole = stepped_class(1, 5, 9, 2);
    for length in [0, 1, 2, 3, 4, 6] {
        let contents = &whole[3..3 + length];
        assert_eq!(language_number(&field(0x11, contents)), 2, "{length}");
    }
    assert_eq!(language_number(&field(0x11, &[&whole[3..], &[0]].concat())), 2);
    assert_eq!(language_number(&field(0x11, &[&whole[3..], &[0, 1]].concat())), 2);
    assert_eq!(language_number(&whole[..9]), 2);
}

#[test]
fn order_and_clashes_of_classes_with_steps() {
    let number = |fields: &[Vec<u8>]| language_number(&fields.concat());
    assert_eq!(number(&[class(1, 5, 9), stepped_class(2, 5, 9, 2), class(3, 5, 9)]), 0);
    assert_eq!(number(&[stepped_class(2, 5, 9, 2), class(1, 5, 9)]), 3);
    assert_eq!(number(&[class(1, 5, 9), stepped_class(1, 5, 9, 1)]), 3);
    assert_eq!(number(&[stepped_class(1, 5, 9, 2), stepped_class(1, 5, 9, 3)]), 3);
    assert_eq!(number(&[stepped_class(1, 5, 9, 2), production(1, 0, &[])]), 4);
    assert_eq!(number(&[production(1, 0, &[]), stepped_class(1, 5, 9, 2)]), 3);
    assert_eq!(number(&[production(1, 0, &[]), stepped_class(1, 5, 9, 0)]), 2);
}

#[test]
fn steps_count_for_the_length_of_a_language_as_handed_in() {
    let with_class = |class: Vec<u8>, bytes: usize| {
        let language = [class.clone(), language_of(bytes - class.len())].concat();
        assert_eq!(language.len(), bytes);
        language_number(&language)
    };
    assert_eq!(with_class(stepped_class(29, 5, 9, 1), 1024), 0);
    assert_eq!(with_class(stepped_class(29, 5, 9, 1), 1025), 1);
    assert_eq!(with_class(stepped_class(29, 5, 9, 2), 1024), 0);
    assert_eq!(with_class(stepped_class(29, 5, 9, 2), 1026), 1);
}

#[test]
fn order_in_a_language() {
    let (low, high) = (class(1, 0, 1), class(2, 0, 1));
    let (first, second) = (production(3, 1, &[]), production(3, 2, &[]));
    assert_eq!(
        language_number(&[low.clone(), high.clone(), first.clone(), second.clone()].concat()),
        0
    );
    assert_eq!(language_number(&[high.clone(), low.clone()].concat()), 3);
    assert_eq!(language_number(&[low.clone(), low.clone()].concat()), 3);
    assert_eq!(language_number(&[second.clone(), first.clone()].concat()), 3);
    assert_eq!(language_number(&[first.clone(), first.clone()].concat()), 3);
    assert_eq!(language_number(&[first.clone(), high.clone()].concat()), 3);
    assert_eq!(language_number(&[production(3, 255, &[]), production(4, 0, &[])].concat()), 0);
    assert_eq!(language_number(&[production(4, 0, &[]), production(3, 255, &[])].concat()), 3);
}

#[test]
fn the_lowest_refusal_of_a_language() {
    let (one, other) = (class(1, 0, 1), production(1, 0, &[]));
    assert_eq!(language_number(&[one.clone(), other.clone()].concat()), 4);
    assert_eq!(language_number(&[other.clone(), one.clone()].concat()), 3);
    assert_eq!(language_number(&[other, one, vec![0x12]].concat()), 2);
}

/// Kind 1: a leaf 0, a chain link 1 and a link 2 to a token of class 2.
fn chains() -> Vec<u8> {
    [class(2, 5, 9), production(1, 0, &[]), production(1, 1, &[1]), production(1, 2, &[2])].concat()
}

/// The number of checking a tree of the chains.
fn chain_number(root: u32, links: usize, end: &[u8]) -> u32 {
    check_tree(&chains(), root, &[vec![1; links], end.to_vec()].concat()).number()
}

#[test]
fn levels_of_a_tree() {
    assert_eq!(chain_number(1, 63, &[0]), 0);
    assert_eq!(chain_number(1, 64, &[0]), 16);
    assert_eq!(chain_number(1, 64, &[]), 16);
    assert_eq!(chain_number(1, 63, &[]), 15);
    assert_eq!(chain_number(1, 64, &[99]), 16);
    assert_eq!(chain_number(1, 63, &[99]), 15);
    assert_eq!(chain_number(1, 10, &[99, 1, 1]), 15);
}

#[test]
fn a_token_of_a_tree_is_no_level() {
    assert_eq!(chain_number(1, 62, &[2, 0, 5]), 0);
    assert_eq!(chain_number(1, 63, &[2, 0, 5]), 0);
    assert_eq!(chain_number(1, 64, &[2, 0, 5]), 16);
    assert_eq!(chain_number(1, 63, &[2]), 15);
    assert_eq!(chain_number(1, 63, &[2, 0]), 15);
    assert_eq!(chain_number(1, 63, &[2, 0, 4]), 15);
    assert_eq!(chain_number(1, 63, &[2, 0, 10]), 15);
    assert_eq!(chain_number(1, 63, &[2, 0, 5, 0]), 15);
    assert_eq!(chain_number(1, 64, &[2]), 16);
}

#[test]
fn an_undefined_kind_of_a_tree_is_a_level() {
    let language = [
        class(2, 5, 9),
        production(1, 1, &[1]),
        production(1, 2, &[7]),
        production(1, 3, &[2, 7]),
        production(1, 4, &[7, 2]),
    ];
    let number = |links: usize, end: &[u8]| {
        check_tree(&language.concat(), 1, &[&vec![1; links], end].concat()).number()
    };
    for end in [&[2][..], &[2, 0], &[3, 0, 5], &[3, 0, 5, 0], &[4], &[4, 0, 5], &[4, 0, 0, 5]] {
        assert_eq!(number(62, end), 15, "{end:?}");
        assert_eq!(number(63, end), 16, "{end:?}");
    }
    assert_eq!(number(63, &[3, 0, 4]), 15);
    assert_eq!(number(63, &[3, 0]), 15);
    assert_eq!(number(63, &[3]), 15);
    assert_eq!(number(64, &[]), 16);
}

#[test]
fn tokens_and_roots_of_a_tree() {
    assert_eq!(chain_number(2, 0, &[0, 5]), 0);
    assert_eq!(chain_number(2, 0, &[0, 9]), 0);
    assert_eq!(chain_number(2, 0, &[0, 4]), 15);
    assert_eq!(chain_number(2, 0, &[0, 10]), 15);
    assert_eq!(chain_number(2, 0, &[0]), 15);
    assert_eq!(chain_number(2, 0, &[0, 5, 0]), 15);
    assert_eq!(chain_number(3, 0, &[0]), 14);
    assert_eq!(chain_number(32, 0, &[0]), 14);
    assert_eq!(chain_number(257, 0, &[0]), 14);
    assert_eq!(chain_number(u32::MAX, 0, &[0]), 14);
}

/// The values for which a tree of a class is legal.
fn legal_values(class: &[u8], kind: u32) -> Vec<u16> {
    let legal = |value: &u16| check_tree(class, kind, &value.to_be_bytes()).number() == 0;
    (0..=u16::MAX).filter(legal).collect()
}

#[test]
fn values_of_a_class_with_steps() {
    let values = |low, high, step| legal_values(&stepped_class(2, low, high, step), 2);
    let fives: Vec<u16> = (20..=40).map(|fifth| 5 * fifth).collect();
    assert_eq!(values(100, 200, 5), fives);
    assert_eq!(values(100, 204, 5), fives);
    assert_eq!(values(100, 199, 5), fives[..20]);
    assert_eq!(values(5, 5, 9), [5]);
    assert_eq!(values(5, 13, 9), [5]);
    assert_eq!(values(5, 14, 9), [5, 14]);
    assert_eq!(values(0, 65_535, 65_535), [0, 65_535]);
    assert_eq!(values(1, 65_535, 65_535), [1]);
    assert_eq!(values(65_535, 65_535, 65_535), [65_535]);
    assert_eq!(values(65_530, 65_535, 4), [65_530, 65_534]);
    assert_eq!(values(7, 9, 1), [7, 8, 9]);
    assert_eq!(legal_values(&class(2, 7, 9), 2), [7, 8, 9]);
}

#[test]
fn undefined_kinds_in_a_tree() {
    let language = production(1, 0, &[7]);
    assert_eq!(check_tree(&language, 7, &[0]).number(), 15);
    assert_eq!(check_tree(&language, 1, &[0, 0]).number(), 15);
    assert_eq!(check_tree(&language, 0, &[0]).number(), 14);
    assert_eq!(check_tree(&[], 0, &[]).number(), 14);
    assert_eq!(check_tree(&[1], 0, &[]).number(), 2);
}

/// A translation of a language with one production 1.0 without arguments, into the chains.
fn with_code(code: &[u8]) -> Vec<u8> {
    let body = [mapping(1, 1), clause(1, 0, code)].concat();
    translation(&production(1, 0, &[]), &chains(), &body)
}

/// Code of so many levels: a chain of links and a leaf.
fn chain_code(levels: usize) -> Vec<u8> {
    [[1, 1].repeat(levels - 1), vec![1, 0]].concat()
}

#[test]
fn levels_of_a_code() {
    assert_eq!(translation_number(&with_code(&chain_code(16))), 0);
    assert_eq!(translation_number(&with_code(&chain_code(17))), 7);
    let token = |links: usize| [[1, 1].repeat(links), vec![1, 2, 2, 0, 5]].concat();
    assert_eq!(translation_number(&with_code(&token(14))), 0);
    assert_eq!(translation_number(&with_code(&token(15))), 0);
    assert_eq!(translation_number(&with_code(&token(16))), 7);
    let argument = |links: usize| {
        let body = [mapping(1, 1), clause(1, 0, &[[1, 1].repeat(links), vec![3, 1]].concat())];
        translation(&production(1, 0, &[1]), &chains(), &body.concat())
    };
    assert_eq!(translation_number(&argument(15)), 0);
    assert_eq!(translation_number(&argument(16)), 7);
}

#[test]
fn below_the_last_level_of_a_code_there_are_tokens_only() {
    let source = [class(2, 5, 9), production(1, 0, &[2])].concat();
    let number = |links: usize, end: &[u8]| {
        let code = [&[1, 1].repeat(links), end].concat();
        let body = [mapping(1, 1), mapping(2, 2), clause(1, 0, &code)].concat();
        translation_number(&translation(&source, &chains(), &body))
    };
    assert_eq!(number(15, &[1, 2, 2, 0, 5]), 0);
    assert_eq!(number(15, &[1, 2, 2, 0, 4]), 7);
    assert_eq!(number(15, &[1, 2, 2, 0, 10]), 7);
    assert_eq!(number(15, &[1, 2, 2, 0]), 7);
    assert_eq!(number(15, &[1, 2, 2, 0, 5, 2]), 7);
    assert_eq!(number(14, &[1, 2, 3, 1]), 0);
    assert_eq!(number(15, &[1, 2, 3, 1]), 7);
    assert_eq!(number(15, &[1, 1, 1, 0]), 7);
    assert_eq!(number(15, &[1, 0]), 0);
}

#[test]
fn broken_and_ill_typed_codes() {
    for code in [&[][..], &[1], &[1, 9], &[1, 0, 0], &[2, 0, 5], &[3, 0], &[3, 1], &[3], &[4, 0]] {
        assert_eq!(translation_number(&with_code(code)), 7);
    }
    for code in [&[1, 2, 2, 0, 4][..], &[1, 2, 2, 0, 10], &[1, 2, 2, 0], &[1, 2, 1, 0], &[1, 1]] {
        assert_eq!(translation_number(&with_code(code)), 7);
    }
    for code in [&[1, 0][..], &[1, 2, 2, 0, 9], &[1, 1, 1, 2, 2, 0, 5]] {
        assert_eq!(translation_number(&with_code(code)), 0);
    }
}

#[test]
fn argument_numbers_in_a_code() {
    let number = |code: &[u8]| {
        let source = [class(2, 5, 9), production(1, 0, &[1, 2])].concat();
        let body = [mapping(1, 1), mapping(2, 2), clause(1, 0, code)].concat();
        translation_number(&translation(&source, &chains(), &body))
    };
    assert_eq!(number(&[3, 1]), 0);
    assert_eq!(number(&[3, 2]), 7);
    assert_eq!(number(&[1, 2, 3, 2]), 0);
    assert_eq!(number(&[1, 2, 3, 1]), 7);
    assert_eq!(number(&[1, 2, 3, 3]), 7);
    assert_eq!(number(&[1, 0]), 0);
}

#[test]
fn mappings_of_a_translation() {
    let number = |body: &[Vec<u8>]| {
        let source = [class(2, 5, 9), production(1, 0, &[7])].concat();
        translation_number(&translation(&source, &chains(), &body.concat()))
    };
    let code = clause(1, 0, &[1, 0]);
    assert_eq!(number(&[mapping(1, 1), mapping(2, 2), mapping(7, 2), code.clone()]), 0);
    assert_eq!(number(&[mapping(1, 1), mapping(2, 2), code.clone()]), 5);
    assert_eq!(number(&[mapping(1, 1), mapping(2, 2), mapping(7, 3), code.clone()]), 5);
    assert_eq!(number(&[mapping(1, 1), mapping(2, 1), mapping(7, 2), code.clone()]), 5);
    let more = [mapping(1, 1), mapping(2, 2), mapping(7, 2), mapping(8, 2), code.clone()];
    assert_eq!(number(&more), 5);
    assert_eq!(number(&[mapping(1, 1), mapping(2, 2), mapping(7, 2)]), 6);
    assert_eq!(number(&[mapping(1, 1), mapping(2, 2)]), 5);
    let extra = [mapping(1, 1), mapping(2, 2), mapping(7, 2), code.clone(), clause(2, 0, &[])];
    assert_eq!(number(&extra), 6);
    let other = [mapping(1, 1), mapping(2, 2), mapping(7, 2), clause(1, 1, &[1, 0])];
    assert_eq!(number(&other), 6);
}

#[test]
fn classes_are_mapped_to_classes_that_contain_them() {
    for (low, high, _, inside) in RANGES {
        let bytes = translation(&class(4, low, high), &chains(), &mapping(4, 2));
        assert_eq!(translation_number(&bytes), if inside { 0 } else { 5 }, "{low} to {high}");
        let bytes = translation(&class(4, low, high), &chains(), &mapping(4, 1));
        assert_eq!(translation_number(&bytes), 5, "{low} to {high} to a result");
    }
}

/// Ranges with steps, and whether each legal value of the first is legal in the second.
const STEPS: [([u16; 3], [u16; 3], bool); 23] = [
    ([100, 200, 5], [100, 200, 5], true),
    ([100, 200, 5], [100, 200, 1], true),
    ([100, 200, 1], [100, 200, 5], false),
    ([100, 200, 10], [100, 200, 5], true),
    ([100, 200, 5], [100, 200, 10], false),
    ([105, 200, 10], [100, 200, 5], true),
    ([101, 200, 5], [100, 200, 5], false),
    ([100, 204, 5], [100, 200, 5], true),
    ([100, 205, 5], [100, 200, 5], false),
    ([100, 200, 5], [100, 204, 5], true),
    ([95, 200, 5], [100, 200, 5], false),
    ([100, 100, 7], [100, 200, 5], true),
    ([100, 106, 7], [100, 200, 5], true),
    ([100, 107, 7], [100, 200, 5], false),
    ([200, 200, 65_535], [100, 200, 5], true),
    ([200, 65_535, 65_336], [100, 200, 5], true),
    ([200, 65_535, 65_335], [100, 200, 5], false),
    ([5, 5, 9], [5, 5, 1], true),
    ([5, 5, 1], [5, 5, 9], true),
    ([0, 65_535, 65_535], [0, 65_535, 3], true),
    ([0, 65_535, 65_535], [0, 65_535, 2], false),
    ([0, 65_535, 2], [0, 65_535, 65_535], false),
    ([1, 65_535, 65_535], [0, 1, 1], true),
];

#[test]
fn classes_with_steps_are_mapped_to_classes_that_contain_them() {
    for ([low, high, step], [wide_low, wide_high, wide_step], inside) in STEPS {
        let source = stepped_class(4, low, high, step);
        let target = stepped_class(2, wide_low, wide_high, wide_step);
        let number = translation_number(&translation(&source, &target, &mapping(4, 2)));
        assert_eq!(number, if inside { 0 } else { 5 }, "{source:?} {target:?}");
    }
}

#[test]
fn tokens_of_a_code_keep_to_the_steps() {
    let target = [stepped_class(2, 100, 203, 5), production(1, 2, &[2])].concat();
    let number = |value: u8| {
        let body = [mapping(1, 1), clause(1, 0, &[1, 2, 2, 0, value])].concat();
        translation_number(&translation(&production(1, 0, &[]), &target, &body))
    };
    assert_eq!([100, 105, 200].map(number), [0; 3]);
    assert_eq!([95, 99, 101, 104, 201, 203, 205].map(number), [7; 7]);
}

#[test]
fn a_translation_handed_in_may_write_steps_of_1() {
    let plain = [class(2, 5, 9), production(1, 0, &[2])].concat();
    let written = [stepped_class(2, 5, 9, 1), production(1, 0, &[2])].concat();
    let body = [mapping(1, 1), mapping(2, 2), clause(1, 0, &[1, 0, 3, 1])].concat();
    for (source, target) in [(&plain, &written), (&written, &plain), (&written, &written)] {
        let value = translation(source, target, &body);
        assert_eq!(translation_number(&value), 0);
        let mut output = [0; 3];
        assert_eq!(run(&value, 1, 0, &[0, 0, 9], &mut output).number(), 0);
        assert_eq!(output, [0, 0, 9]);
        assert_eq!(run(&value, 1, 0, &[0, 0, 10], &mut output).number(), 15);
    }
}

#[test]
fn a_class_outside_is_refused_before_clauses_and_codes() {
    let source = |high| [class(2, 5, high), production(1, 0, &[2])].concat();
    let number = |high, clauses: &[u8]| {
        let body = [mapping(1, 1), mapping(2, 2), clauses.to_vec()].concat();
        translation_number(&translation(&source(high), &chains(), &body))
    };
    assert_eq!(number(8, &clause(1, 0, &[1, 2, 3, 1])), 0);
    assert_eq!(number(10, &clause(1, 0, &[1, 2, 3, 1])), 5);
    assert_eq!(number(8, &[]), 6);
    assert_eq!(number(10, &[]), 5);
    assert_eq!(number(8, &clause(1, 0, &[9])), 7);
    assert_eq!(number(10, &clause(1, 0, &[9])), 5);
}

#[test]
fn two_classes_may_lie_inside_one() {
    let source = [class(4, 5, 6), class(5, 8, 9), class(6, 5, 9)].concat();
    let body = [mapping(4, 2), mapping(5, 2), mapping(6, 2)].concat();
    assert_eq!(translation_number(&translation(&source, &chains(), &body)), 0);
}

#[test]
fn a_result_may_be_mapped_to_a_class_or_an_undefined_kind() {
    let source = [production(1, 0, &[]), production(1, 1, &[1])].concat();
    let to_class = [mapping(1, 2), clause(1, 0, &[2, 0, 9]), clause(1, 1, &[3, 1])].concat();
    assert_eq!(translation_number(&translation(&source, &chains(), &to_class)), 0);
    let target = production(1, 0, &[7]);
    let to_undefined = [mapping(1, 7), clause(1, 1, &[3, 1])].concat();
    let source = production(1, 1, &[1]);
    assert_eq!(translation_number(&translation(&source, &target, &to_undefined)), 0);
}

#[test]
fn groups_of_fields_in_a_translation() {
    let (source, target) = (field(0x20, &[]), field(0x21, &[]));
    assert_eq!(translation_number(&[source.clone(), target.clone()].concat()), 0);
    assert_eq!(translation_number(&[]), 2);
    assert_eq!(translation_number(&source), 2);
    assert_eq!(translation_number(&target), 2);
    assert_eq!(translation_number(&[target.clone(), source.clone()].concat()), 2);
    assert_eq!(translation_number(&[source.clone(), target.clone(), target.clone()].concat()), 2);
    assert_eq!(translation_number(&[source.clone(), target.clone(), source.clone()].concat()), 2);
    let swapped = [source.clone(), target.clone(), clause(1, 1, &[]), mapping(1, 1)];
    assert_eq!(translation_number(&swapped.concat()), 2);
    let body = |fields: &[Vec<u8>]| [&[source.clone(), target.clone()], fields].concat().concat();
    assert_eq!(translation_number(&body(&[mapping(2, 1), mapping(1, 1)])), 3);
    assert_eq!(translation_number(&body(&[mapping(1, 1), mapping(1, 1)])), 3);
    assert_eq!(translation_number(&body(&[clause(1, 2, &[]), clause(1, 1, &[])])), 3);
    assert_eq!(translation_number(&body(&[clause(1, 1, &[]), clause(1, 1, &[])])), 3);
    assert_eq!(translation_number(&body(&[mapping(32, 1)])), 2);
    assert_eq!(translation_number(&body(&[mapping(1, 32)])), 2);
    assert_eq!(translation_number(&body(&[clause(32, 0, &[])])), 2);
    assert_eq!(translation_number(&body(&[field(0x22, &[1])])), 2);
    assert_eq!(translation_number(&body(&[field(0x22, &[1, 1, 1])])), 2);
    assert_eq!(translation_number(&body(&[field(0x23, &[1])])), 2);
    assert_eq!(translation_number(&body(&[field(0x24, &[1, 1])])), 2);
    assert_eq!(translation_number(&body(&[mapping(31, 31)])), 5);
    assert_eq!(translation_number(&body(&[clause(31, 255, &[])])), 6);
}

#[test]
fn refusals_of_the_languages_in_a_translation() {
    let good = production(1, 0, &[]);
    let clash = [class(1, 0, 1), good.clone()].concat();
    let order = [good.clone(), good.clone()].concat();
    let broken = vec![0x12, 0, 2, 0];
    assert_eq!(translation_number(&translation(&clash, &[], &[])), 4);
    assert_eq!(translation_number(&translation(&[], &clash, &[])), 4);
    assert_eq!(translation_number(&translation(&clash, &order, &[])), 3);
    assert_eq!(translation_number(&translation(&order, &broken, &[])), 2);
    let both = [mapping(1, 1), mapping(1, 1)].concat();
    assert_eq!(translation_number(&translation(&clash, &clash, &both)), 3);
}

#[test]
fn languages_over_their_limit_in_a_translation() {
    assert_eq!(translation_number(&translation(&language_of(1024), &[], &[])), 5);
    assert_eq!(translation_number(&translation(&[], &language_of(1024), &[])), 0);
    assert_eq!(translation_number(&translation(&[], &language_of(1025), &[])), 1);
    assert_eq!(translation_number(&[0x20, 4, 1]), 1);
    assert_eq!(translation_number(&[0x20, 4, 0]), 2);
    assert_eq!(translation_number(&[0x21, 255, 255]), 1);
    assert_eq!(translation_number(&[0x99, 0, 1, 7, 0x20, 4, 1]), 1);
    assert_eq!(translation_number(&[0x99, 0, 9, 7, 0x20, 4, 1]), 2);
    assert_eq!(translation_number(&[0x20, 4, 1][..2]), 2);
    let late = [translation(&[], &[], &mapping(1, 1)), vec![0x21, 4, 1]].concat();
    assert_eq!(translation_number(&late), 1);
    assert_eq!(translation_number(&[0x22, 4, 1]), 2);
}

#[test]
fn the_length_of_a_translation() {
    let wide = |bytes: usize, classes: &[u8]| {
        let source = production(1, 0, &[1]);
        let target = [classes, &production(1, 0, &[1, 1])].concat();
        let fixed = translation(&source, &target, &mapping(1, 1)).len() + 5;
        let links = (bytes - fixed - 2) / 4;
        let code = full_code(links);
        let padding = bytes - fixed - code.len();
        let source = production(1, 0, &vec![1; 1 + padding]);
        translation(&source, &target, &[mapping(1, 1), clause(1, 0, &code)].concat())
    };
    for classes in [vec![], class(0, 5, 9), stepped_class(0, 5, 9, 1), stepped_class(0, 5, 9, 2)] {
        assert_eq!(wide(4096, &classes).len(), 4096);
        assert_eq!(wide(4097, &classes).len(), 4097);
        assert_eq!(translation_number(&wide(4096, &classes)), 0);
        assert_eq!(translation_number(&wide(4097, &classes)), 1);
    }
    assert_eq!(translation_number(&[0; 4096]), 2);
    assert_eq!(translation_number(&[0; 4097]), 1);
}

/// Code with so many productions 0 of two arguments, each leaf the first argument.
fn full_code(links: usize) -> Vec<u8> {
    if links == 0 {
        return vec![3, 1];
    }
    let left = (links - 1) / 2;
    [vec![1, 0], full_code(left), full_code(links - 1 - left)].concat()
}
