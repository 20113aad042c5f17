//! Exports and imports: each refusal, each limit on both sides, the definitions, and exports as XML.

mod build;
mod model;
mod parser;

use build::*;
use model::{Grammar, Tree};
use parser::{parse, Element};
use reference::generate::{export_case, import_case, Random};
use reference::{check_tree, export, import};

/// Bytes of an output before the call.
const MARK: u8 = 0xD5;

/// The number and the result of an operation on a marked output; the rest must be unchanged.
fn marked(room: usize, call: impl FnOnce(&mut [u8]) -> reference::Outcome) -> (u32, Vec<u8>) {
    let mut output = vec![MARK; room];
    let outcome = call(&mut output);
    let rest = output.split_off(outcome.length() as usize);
    assert!(rest.iter().all(|&byte| byte == MARK));
    assert!(outcome.number() == 0 || output.is_empty());
    (outcome.number(), output)
}

/// Class 2 of 0 to 65,535 and 31 of 5 to 9 by 2; kind 1: a leaf 0, links 1, tokens 2, 3 and 255.
fn language() -> Vec<u8> {
    [
        class(2, 0, 65_535),
        stepped_class(31, 5, 9, 2),
        production(1, 0, &[]),
        production(1, 1, &[1]),
        production(1, 2, &[2]),
        production(1, 3, &[31, 1, 2]),
        production(1, 4, &[7]),
        production(1, 255, &[2, 2]),
        production(30, 10, &[30, 1]),
        production(30, 100, &[]),
    ]
    .concat()
}

/// The export of a tree.
fn exported(root: u32, tree: &[u8]) -> String {
    let (number, text) = marked(4000, |output| export(&language(), root, tree, output));
    assert_eq!(number, 0);
    String::from_utf8(text).expect("a text")
}

/// The number of an import.
fn import_number(root: u32, text: &str) -> u32 {
    marked(4000, |output| import(&language(), root, text.as_bytes(), output)).0
}

#[test]
fn texts_of_trees() {
    let texts: [(u32, &[u8], &str); 8] = [
        (1, &[0], "<x1.0></x1.0>"),
        (1, &[1, 0], "<x1.1><x1.0></x1.0></x1.1>"),
        (1, &[2, 0, 0], "<x1.2><t2>0</t2></x1.2>"),
        (1, &[255, 0, 9, 0xFF, 0xFF], "<x1.255><t2>9</t2><t2>65535</t2></x1.255>"),
        (1, &[3, 0, 7, 0, 4, 210], "<x1.3><t31>7</t31><x1.0></x1.0><t2>1234</t2></x1.3>"),
        (2, &[0, 10], "<t2>10</t2>"),
        (31, &[0, 9], "<t31>9</t31>"),
        (30, &[10, 100, 0], "<x30.10><x30.100></x30.100><x1.0></x1.0></x30.10>"),
    ];
    for (root, tree, text) in texts {
        assert_eq!(exported(root, tree), text);
        let back = marked(4000, |output| import(&language(), root, text.as_bytes(), output));
        assert_eq!(back, (0, tree.to_vec()), "{text}");
    }
}

#[test]
fn digits_of_every_value() {
    for value in 0..=u16::MAX {
        let text = format!("<t2>{value}</t2>");
        assert_eq!(exported(2, &value.to_be_bytes()), text);
        let back = marked(2, |output| import(&language(), 2, text.as_bytes(), output));
        assert_eq!(back, (0, value.to_be_bytes().to_vec()));
    }
}

#[test]
fn names_of_every_kind_and_production() {
    for kind in 0..32 {
        for name in 0..=255 {
            let language = production(kind, name, &[]);
            let text = format!("<x{kind}.{name}></x{kind}.{name}>").into_bytes();
            let out = marked(30, |output| export(&language, kind.into(), &[name], output));
            assert_eq!(out, (0, text.clone()));
            let back = marked(30, |output| import(&language, kind.into(), &text, output));
            assert_eq!(back, (0, vec![name]));
        }
    }
}

#[test]
fn texts_that_are_no_exports() {
    let texts = [
        "",
        "x",
        "<x1.0>",
        "<x1.0/>",
        "<x1.0 />",
        "<x1.0 ></x1.0>",
        "<x1.0 a=\"1\"></x1.0>",
        " <x1.0></x1.0>",
        "<x1.0> </x1.0>",
        "<x1.0></x1.0>\n",
        "<x1.0></x1.0><x1.0></x1.0>",
        "<x1.0></x1.1>",
        "<x1.0></x2.0>",
        "<x1.00></x1.00>",
        "<x1.00></x1.0>",
        "<x01.0></x01.0>",
        "<x1.256></x1.256>",
        "<x1.65536></x1.65536>",
        "<x1.4294967296></x1.4294967296>",
        "<x1.></x1.>",
        "<x1></x1>",
        "<X1.0></X1.0>",
        "<x2.0></x2.0>",
        "<x1.5></x1.5>",
        "<x1.1></x1.1>",
        "<x1.1><x1.0></x1.0><x1.0></x1.0></x1.1>",
        "<x1.0><x1.0></x1.0></x1.0>",
        "<x1.4></x1.4>",
        "<x1.4><x7.0></x7.0></x1.4>",
        "<x1.4><t7>5</t7></x1.4>",
        "<t2>5</t2>",
        "<?xml version=\"1.0\"?><x1.0></x1.0>",
        "<!----><x1.0></x1.0>",
    ];
    for text in texts {
        assert_eq!(import_number(1, text), 20, "{text}");
    }
}

#[test]
fn tokens_that_are_no_exports() {
    let values = ["", "00", "01", "-1", "+1", " 1", "1 ", "65536", "99999", "100000", "4294967297"];
    for value in values {
        assert_eq!(import_number(2, &format!("<t2>{value}</t2>")), 20, "{value}");
    }
    for text in ["<t2>5", "<t2>5</t2", "<t2>5</t3>", "<t3>5</t3>", "<t02>5</t02>", "<t2>5</t2> "] {
        assert_eq!(import_number(2, text), 20, "{text}");
    }
    for (value, number) in [(4, 20), (5, 0), (6, 20), (7, 0), (9, 0), (11, 20)] {
        assert_eq!(import_number(31, &format!("<t31>{value}</t31>")), number, "{value}");
    }
}

#[test]
fn an_undefined_kind_has_no_text() {
    for text in ["", "<x7.0></x7.0>", "<t7>5</t7>"] {
        assert_eq!(import_number(7, text), 20, "{text}");
    }
    assert_eq!(marked(99, |output| export(&language(), 7, &[0], output)).0, 15);
}

/// Links around a text.
fn linked(links: usize, inner: &str) -> String {
    format!("{}{inner}{}", "<x1.1>".repeat(links), "</x1.1>".repeat(links))
}

#[test]
fn levels() {
    assert_eq!(import_number(1, &linked(63, "<x1.0></x1.0>")), 0);
    assert_eq!(import_number(1, &linked(63, "<x1.2><t2>5</t2></x1.2>")), 0);
    assert_eq!(import_number(1, &linked(64, "<x1.0></x1.0>")), 16);
    assert_eq!(import_number(1, &linked(64, "")), 16);
    assert_eq!(import_number(1, &linked(63, "")), 20);
    assert_eq!(import_number(1, &"<x1.1>".repeat(64)), 16);
    assert_eq!(import_number(1, &"<x1.1>".repeat(63)), 20);
    assert_eq!(import_number(1, &linked(64, "?")), 16);
    assert_eq!(import_number(1, &linked(10, "?")), 20);
    assert_eq!(import_number(1, &linked(62, "<x1.4>")), 20);
    assert_eq!(import_number(1, &linked(63, "<x1.4>")), 16);
    assert_eq!(import_number(1, &linked(63, "<x1.4")), 20);
    assert_eq!(import_number(1, &linked(63, "<x1.3><t31>5</t31>")), 16);
    assert_eq!(import_number(1, &linked(63, "<x1.3><t31>6</t31>")), 20);
    let export_number = |links: usize| {
        let tree = [&vec![1; links][..], &[2, 0, 5]].concat();
        marked(4000, |output| export(&language(), 1, &tree, output)).0
    };
    assert_eq!((export_number(63), export_number(64)), (0, 16));
}

#[test]
fn damage_before_and_after_too_deep_a_level() {
    let deep = linked(63, "<x1.0></x1.0>");
    let pair =
        |first: &str, second: &str| import_number(30, &format!("<x30.10>{first}{second}</x30.10>"));
    assert_eq!(pair("<x30.100></x30.100>", &linked(62, "<x1.0></x1.0>")), 0);
    assert_eq!(pair("<x30.100></x30.100>", &deep), 16);
    assert_eq!(pair("<x30.100 ></x30.100>", &deep), 20);
    assert_eq!(pair("<x30.100></x30.100>", &format!("{deep} ")), 16);
}

#[test]
fn outputs() {
    let (tree, text) =
        ([3, 0, 7, 0, 4, 210], "<x1.3><t31>7</t31><x1.0></x1.0><t2>1234</t2></x1.3>");
    let room = |room| marked(room, |output| export(&language(), 1, &tree, output)).0;
    assert_eq!([text.len(), text.len() - 1, text.len() + 1, 0].map(room), [0, 17, 0, 17]);
    let room = |room| marked(room, |output| import(&language(), 1, text.as_bytes(), output)).0;
    assert_eq!([6, 5, 7, 0].map(room), [0, 17, 0, 17]);
}

#[test]
fn the_order_of_refusals() {
    let out = |language: &[u8], root| marked(0, |output| export(language, root, &[9], output)).0;
    let back = |language: &[u8], root| marked(0, |output| import(language, root, b"?", output)).0;
    let leaf = production(1, 0, &[]);
    let languages = [
        (vec![0; 1025], 1, 1),
        (vec![0x12], 1, 2),
        ([leaf.clone(), leaf.clone()].concat(), 1, 3),
        ([class(1, 0, 1), leaf.clone()].concat(), 1, 4),
        (leaf.clone(), 2, 14),
        (leaf.clone(), 257, 14),
        (vec![], 0, 14),
    ];
    for (language, root, number) in languages {
        assert_eq!((out(&language, root), back(&language, root)), (number, number));
    }
    assert_eq!((out(&leaf, 1), back(&leaf, 1)), (15, 20));
    assert_eq!(marked(0, |output| export(&leaf, 1, &[0], output)).0, 17);
    assert_eq!(marked(0, |output| import(&leaf, 1, b"<x1.0></x1.0>", output)).0, 17);
}

/// The text of a tree by its definition.
fn text_of(tree: &Tree) -> String {
    match tree {
        Tree::Token { kind, value } => format!("<t{kind}>{value}</t{kind}>"),
        Tree::Production { kind, name, arguments } => {
            let arguments: String = arguments.iter().map(text_of).collect();
            format!("<x{kind}.{name}>{arguments}</x{kind}.{name}>")
        }
    }
}

/// Whether a parsed element is a tree, node by node.
fn is_tree(element: &Element, tree: &Tree) -> bool {
    let (name, text) = match tree {
        Tree::Token { kind, value } => (format!("t{kind}"), Some(value.to_string())),
        Tree::Production { kind, name, .. } => (format!("x{kind}.{name}"), None),
    };
    let (children, arguments) = (element.children(), tree.arguments());
    element.name == name
        && element.attributes.is_empty()
        && text.is_none_or(|text| element.text() == text)
        && children.len() == arguments.len()
        && children.iter().zip(arguments).all(|(child, argument)| is_tree(child, argument))
}

/// Each number that is possible is reached, and no other.
fn assert_reached(counts: [usize; 22], possible: &[usize]) {
    for (number, &count) in counts.iter().enumerate() {
        assert_eq!(count >= 20, possible.contains(&number), "{number}: {counts:?}");
    }
}

#[test]
fn exports_are_as_defined_and_well_formed() {
    let (mut random, mut counts) = (Random::new(51), [0; 22]);
    for case in 0..15_000 {
        let input = export_case(&mut random);
        let call = |output: &mut [u8]| export(&input.language, input.root, &input.tree, output);
        let (number, text) = marked(input.output, call);
        counts[number as usize] += 1;
        let checked = check_tree(&input.language, input.root, &input.tree).number();
        if checked != 0 {
            assert_eq!(number, checked, "case {case}");
            continue;
        }
        let tree = Grammar::new(&input.language).tree(input.root, &input.tree);
        let expected = text_of(&tree);
        assert_eq!(number, if expected.len() > input.output { 17 } else { 0 }, "case {case}");
        if number == 0 {
            assert_eq!(text, expected.as_bytes(), "case {case}");
            assert!(parse(&expected).is_some_and(|element| is_tree(&element, &tree)), "{expected}");
            let back = |output: &mut [u8]| import(&input.language, input.root, &text, output);
            assert_eq!(marked(input.tree.len(), back), (0, input.tree), "case {case}");
        }
    }
    assert_reached(counts, &[0, 1, 2, 3, 4, 14, 15, 16, 17]);
}

/// A tree's bytes and the text behind its text, or the number of a refusal.
type Read<'a> = Result<(Vec<u8>, &'a str), u32>;

/// Steps over a text that must stand here.
fn stripped<'a>(text: &'a str, prefix: &str) -> Result<&'a str, u32> {
    text.strip_prefix(prefix).ok_or(20)
}

/// Reads the text of a token by its definition.
fn defined_token<'a>(language: &[u8], kind: u8, text: &'a str) -> Read<'a> {
    let rest = stripped(text, &format!("<t{kind}>"))?;
    let (digits, rest) = rest.split_once('<').ok_or(20u32)?;
    let value: u16 = digits.parse().map_err(|_| 20u32)?;
    let legal = check_tree(language, kind.into(), &value.to_be_bytes()).number() == 0;
    let rest = stripped(rest, &format!("/t{kind}>"))?;
    let good = legal && digits == value.to_string();
    good.then(|| (value.to_be_bytes().to_vec(), rest)).ok_or(20)
}

/// Reads the text of a tree at a level by its definition.
fn defined<'a>(
    language: &[u8],
    grammar: &Grammar,
    kind: u8,
    level: usize,
    text: &'a str,
) -> Read<'a> {
    if grammar.classes.contains(&kind) {
        return defined_token(language, kind, text);
    }
    if level > 64 {
        return Err(16);
    }
    let mut productions = grammar.productions.iter().filter(|((result, _), _)| *result == kind);
    let opened = productions.find_map(|((_, name), arguments)| {
        Some((*name, arguments, text.strip_prefix(&format!("<x{kind}.{name}>"))?))
    });
    let (name, arguments, mut rest) = opened.ok_or(20u32)?;
    let mut tree = vec![name];
    for &argument in arguments {
        let (bytes, behind) = defined(language, grammar, argument, level + 1, rest)?;
        tree.extend(bytes);
        rest = behind;
    }
    Ok((tree, stripped(rest, &format!("</x{kind}.{name}>"))?))
}

/// What an import must answer.
fn expected(language: &[u8], root: u32, text: &[u8], room: usize) -> (u32, Vec<u8>) {
    let first = check_tree(language, root, &[]).number();
    if matches!(first, 1..=4 | 14) {
        return (first, vec![]);
    }
    let text = String::from_utf8_lossy(text);
    match defined(language, &Grammar::new(language), root as u8, 1, &text) {
        Err(number) => (number, vec![]),
        Ok((_, rest)) if !rest.is_empty() => (20, vec![]),
        Ok((tree, _)) if tree.len() > room => (17, vec![]),
        Ok((tree, _)) => (0, tree),
    }
}

#[test]
fn imports_are_as_defined_and_exports_of_what_they_give() {
    let (mut random, mut counts) = (Random::new(52), [0; 22]);
    for case in 0..15_000 {
        let input = import_case(&mut random);
        let call = |output: &mut [u8]| import(&input.language, input.root, &input.text, output);
        let (number, tree) = marked(input.output, call);
        let wanted = expected(&input.language, input.root, &input.text, input.output);
        let shown = String::from_utf8_lossy(&input.text);
        assert_eq!((number, &tree), (wanted.0, &wanted.1), "case {case}: {shown}");
        counts[number as usize] += 1;
        if number == 0 {
            assert_eq!(check_tree(&input.language, input.root, &tree).number(), 0);
            let again = |output: &mut [u8]| export(&input.language, input.root, &tree, output);
            assert_eq!(marked(input.text.len(), again), (0, input.text), "case {case}");
        }
    }
    assert_reached(counts, &[0, 1, 2, 3, 4, 14, 16, 17, 20]);
}
