//! Translations: well-formed ones, exactly full ones, and files that are to be refused.

use super::codes::Coder;
use super::damage::{damage, damage_fields};
use super::heights::Heights;
use super::languages::{arguments, encoded, full_language, language, name};
use super::long::long_run_case;
use super::numbers::{cut_others, other_numbers, root_number, uses_of, wrong_numbers};
use super::random::Random;
use super::ranges::{inside, outside, related, step, with_one_range, with_ranges};
use super::trees::{chain_language, chain_tree, root_and_tree};
use super::written::{write_steps, write_steps_within};
use crate::body::{Body, Clause, Clauses, Mapping, Numbered};
use crate::code::{Symbol, CODE_LEVELS};
use crate::field::put_header;
use crate::language::{bit, Class, Language, Production, KINDS, LANGUAGE_LIMIT};
use crate::operators::identity;
use crate::run::run;
use crate::translation::{Translation, SOURCE_TAG, TARGET_TAG, TRANSLATION_LIMIT};
use std::collections::BTreeMap;

/// The input of a run.
#[derive(Clone, Debug)]
pub struct RunCase {
    pub translation: Vec<u8>,
    pub root: u32,
    pub number: u32,
    pub tree: Vec<u8>,
    pub output: usize,
}

/// One of the kinds in a set that is not empty.
fn kind_in(random: &mut Random, kinds: u32) -> u8 {
    let list: Vec<u8> = (0..KINDS as u8).filter(|&kind| kinds & bit(kind) != 0).collect();
    random.pick(&list)
}

/// A mapping for every kind: classes of the source as given, others to any kind of the target.
fn whole_mapping(random: &mut Random, target: &Language, classes: &[(Class, u8)]) -> [u8; KINDS] {
    let mut whole = [0; KINDS];
    let heights = Heights::new(target);
    let grown = (0..KINDS as u8).filter(|&kind| heights.least(kind).is_some());
    let grown = grown.fold(0, |kinds, kind| kinds | bit(kind));
    for place in whole.iter_mut() {
        let usual = grown != 0 && random.percent(95);
        *place = kind_in(random, if usual { grown } else { target.kinds() });
    }
    for (class, kind) in classes {
        whole[class.kind as usize] = *kind;
    }
    whole
}

/// Source classes for some of the target's classes, of equal range or inside, by rising kind.
fn source_classes(random: &mut Random, target: &Language) -> Vec<(Class, u8)> {
    let mut table = BTreeMap::new();
    for class in &target.classes {
        for _ in 0..random.below(3) {
            let kind = if random.percent(60) { class.kind } else { random.below(KINDS) as u8 };
            let range = if random.percent(50) { *class } else { inside(random, class) };
            table.entry(kind).or_insert((Class { kind, ..range }, class.kind));
        }
    }
    table.into_values().collect()
}

/// Productions for a source with these classes.
fn source_productions(random: &mut Random, classes: &[(Class, u8)]) -> Vec<Production> {
    let taken = classes.iter().fold(0, |kinds, (class, _)| kinds | bit(class.kind));
    if taken == u32::MAX {
        return vec![];
    }
    let results: Vec<u8> = (0..random.within(1..=4)).map(|_| kind_in(random, !taken)).collect();
    let mut kinds = results.clone();
    kinds.extend(classes.iter().map(|(class, _)| class.kind));
    let mut table = BTreeMap::new();
    let most = if random.percent(10) { 60 } else { 8 };
    for _ in 0..random.below(most) {
        let list = if random.percent(30) && !classes.is_empty() {
            &kinds[results.len()..]
        } else {
            &kinds
        };
        let arguments = arguments(random, list);
        let production = Production::new(random.pick(&results), name(random), &arguments);
        table.insert(production.key(), production);
    }
    table.into_values().collect()
}

/// Gives a code of a kind, if one is found.
type Code = fn(&Coder, &mut Random, u8) -> Option<Vec<u8>>;

/// A body for the source: the mapping cut to its kinds, often with other numbers, and a code for each
/// production and number.
///
/// Productions for which no code is found are dropped from the source.
fn with_body(
    random: &mut Random,
    mut source: Language,
    target: Language,
    zero: &[u8; KINDS],
    code: Code,
) -> Translation {
    let heights = Heights::new(&target);
    let others = other_numbers(random, &source, &target, zero);
    let whole = Body { mapping: zero.map(Some), others, clauses: Clauses::default() };
    let mut clauses = Clauses::default();
    source.productions.retain(|production| {
        let arguments = uses_of(&whole, production.arguments());
        let coder = Coder { target: &target, heights: &heights, arguments: &arguments };
        let by = |(number, kind)| Some((number, code(&coder, random, kind)?));
        let codes: Option<Vec<(u8, Vec<u8>)>> = whole.numbers(production.result).map(by).collect();
        let Some(codes) = codes else { return false };
        for (number, code) in &codes {
            clauses.push(Clause { key: production.key(), number: *number, code });
        }
        true
    });
    let mapping = cut_mapping(&source, |kind| zero[kind as usize]);
    let others = cut_others(&source, &whole.others);
    Translation { source, target, body: Body { mapping, others, clauses } }
}

/// A mapping of exactly the kinds in the language.
pub fn cut_mapping(source: &Language, to: impl Fn(u8) -> u8) -> Mapping {
    let kinds = source.kinds();
    let mut mapping = Mapping::default();
    for kind in (0..KINDS as u8).filter(|&kind| kinds & bit(kind) != 0) {
        mapping[kind as usize] = Some(to(kind));
    }
    mapping
}

/// Drops the last productions of the source, with their clauses, until the limit holds.
fn trim(mut translation: Translation, limit: usize) -> Translation {
    while translation.encoded_length() > limit
        || translation.source.encoded_length() > LANGUAGE_LIMIT
    {
        let gone = translation.source.productions.pop().map(|production| production.key());
        let clauses = translation.body.clauses.iter();
        let clauses = clauses.filter(|clause| Some(clause.key) != gone).collect();
        let whole = translation.body.mapping;
        let to = |kind| whole[kind as usize].expect("mapped before");
        translation.body.mapping = cut_mapping(&translation.source, to);
        translation.body.others = cut_others(&translation.source, &translation.body.others);
        translation.body.clauses = clauses;
    }
    translation
}

/// A well-formed translation.
pub fn translation(random: &mut Random) -> Translation {
    let target = language(random);
    if target.kinds() == 0 {
        let (source, body) = (Language::default(), Body::default());
        return Translation { source, target, body };
    }
    let classes = source_classes(random, &target);
    let productions = source_productions(random, &classes);
    let whole = whole_mapping(random, &target, &classes);
    let source =
        Language { classes: classes.into_iter().map(|(class, _)| class).collect(), productions };
    let code: Code = |coder, random, kind| coder.code(random, kind);
    trim(with_body(random, source, target, &whole, code), TRANSLATION_LIMIT)
}

/// A well-formed translation of a language into itself.
pub fn endomorphism(random: &mut Random, language: &Language) -> Translation {
    if language.kinds() == 0 {
        let (source, target) = (language.clone(), language.clone());
        return Translation { source, target, body: Body::default() };
    }
    let classes: Vec<(Class, u8)> =
        language.classes.iter().map(|class| (*class, class.kind)).collect();
    let mut whole = whole_mapping(random, language, &classes);
    if random.percent(60) {
        whole = std::array::from_fn(|kind| kind as u8);
    }
    let (source, target) = (language.clone(), language.clone());
    let code: Code = |coder, random, kind| coder.code(random, kind);
    trim(with_body(random, source, target, &whole, code), TRANSLATION_LIMIT)
}

/// The translation with a source whose classes lie inside those that they had.
pub fn narrowed(random: &mut Random, translation: Translation) -> Translation {
    Translation { source: with_ranges(random, &translation.source, inside), ..translation }
}

/// A translation of a language into itself whose clauses mostly arrange their arguments anew.
pub fn arrangement(random: &mut Random, language: &Language) -> Translation {
    let whole = std::array::from_fn(|kind| kind as u8);
    let (source, target) = (language.clone(), language.clone());
    let code: Code = |coder, random, kind| coder.arrangement(random, kind);
    trim(with_body(random, source, target, &whole, code), TRANSLATION_LIMIT)
}

/// A language whose kind 1 has names 0, 1 and 2 with none, one and two arguments of kind 1.
pub fn counting_language() -> Language {
    let productions = (0..3).map(|count| Production::new(1, count, &[1, 1][..count as usize]));
    Language { classes: vec![], productions: productions.collect() }
}

/// A translation of the counting language into itself with these codes.
pub fn counting_translation(codes: [&[u8]; 3]) -> Translation {
    let (source, target) = (counting_language(), counting_language());
    let clauses = source.productions.iter().zip(codes);
    let clauses = clauses.map(|(production, code)| Clause::plain(production.key(), code)).collect();
    let mapping = cut_mapping(&source, |_| 1);
    Translation { source, target, body: Body { mapping, clauses, ..Body::default() } }
}

/// Appends a code over the counting language with so many nodes and few levels.
pub fn put_counting_code(nodes: usize, code: &mut Vec<u8>) {
    match nodes {
        0 => {}
        1 => Symbol::Production(0).put(code),
        2 => {
            Symbol::Production(1).put(code);
            put_counting_code(1, code);
        }
        _ => {
            Symbol::Production(2).put(code);
            put_counting_code((nodes - 1) / 2, code);
            put_counting_code(nodes - 1 - (nodes - 1) / 2, code);
        }
    }
}

/// A chain of one-argument nodes over the counting language with so many levels.
pub fn chain_code(levels: usize) -> Vec<u8> {
    let mut code = [1, 1].repeat(levels - 1);
    code.extend_from_slice(&[1, 0]);
    code
}

/// The counting language with a class that no production uses, mostly of step 1.
pub fn counting_with_class(random: &mut Random) -> Language {
    let (low, high) = random.pick(&[(0, 9), (5, 5), (0, u16::MAX), (3, 64)]);
    let step = step(random, low, high);
    let classes = vec![Class { kind: 9, low, high, step }];
    Language { classes, ..counting_language() }
}

/// A well-formed translation of exactly so many bytes, into the counting language.
pub fn full_translation(random: &mut Random, bytes: usize) -> Translation {
    let numbers = full_numbers(random);
    full_translation_by(random, counting_language(), numbers, bytes)
}

/// The same into the counting language with some more in it.
pub fn full_translation_into(random: &mut Random, target: Language, bytes: usize) -> Translation {
    full_translation_by(random, target, &[], bytes)
}

/// The same by these numbers besides 0, which rise; there are at most three.
pub fn full_translation_by(
    random: &mut Random,
    target: Language,
    numbers: &[u8],
    bytes: usize,
) -> Translation {
    let count = random.within(1..=bytes / (60 * (1 + numbers.len())));
    let mut names: Vec<u8> = (0..count).map(|_| random.byte()).collect();
    names.sort_unstable();
    names.dedup();
    let mut productions: Vec<Production> =
        names.iter().map(|&name| Production::new(7, name, &vec![7; random.below(4)])).collect();
    let fixed = |productions: &[Production]| {
        let source = Language { classes: vec![], productions: productions.to_vec() };
        let codes = productions.len() * (5 + 6 * numbers.len()) + 6 * numbers.len();
        6 + source.encoded_length() + target.encoded_length() + 5 + codes
    };
    if (bytes - fixed(&productions)) % 2 == 1 {
        let first = productions[0];
        let wider = [first.arguments(), &[7]].concat();
        productions[0] = Production::new(7, first.name, &wider);
    }
    let nodes = (bytes - fixed(&productions)) / 2;
    let mut clauses = Clauses::default();
    let mut left = nodes;
    let all = [&[0], numbers].concat();
    let due = productions.iter().flat_map(|of| all.iter().map(move |&number| (of.key(), number)));
    for (place, (key, number)) in due.enumerate() {
        let rest = productions.len() * all.len() - place;
        let share = if rest == 1 { left } else { random.within(1..=2 * left / rest - 1) };
        let mut code = Vec::new();
        put_counting_code(share, &mut code);
        clauses.push(Clause { key, number, code: &code });
        left -= share;
    }
    let source = Language { classes: vec![], productions };
    let mapping = cut_mapping(&source, |_| 1);
    let others = numbers.iter().map(|&number| Numbered { kind: 7, number, target: 1 }).collect();
    Translation { source, target, body: Body { mapping, others, clauses } }
}

/// Numbers for a full translation: often none besides 0.
pub fn full_numbers(random: &mut Random) -> &'static [u8] {
    random.pick(&[&[], &[], &[1], &[1, 15], &[2, 3, 15], &[16], &[1, 255]])
}

/// The bytes of a translation; some steps of 1 may be written.
pub fn translation_bytes(random: &mut Random, translation: &Translation) -> Vec<u8> {
    let mut bytes = translation.encode();
    if random.percent(20) {
        write_steps_within(random, &mut bytes);
    }
    bytes
}

/// The bytes of a well-formed translation of exactly so many, with one step of 1 written.
fn full_translation_with_step(random: &mut Random, bytes: usize) -> Vec<u8> {
    let mut target = counting_language();
    target.classes.push(Class::plain(9, 0, 9));
    let translation = full_translation_into(random, target, bytes - 2);
    let Translation { source, target, body } = &translation;
    let (source, mut target) = (encoded(source), encoded(target));
    write_steps(random, 100, &mut target);
    let mut file = Vec::new();
    for (tag, contents) in [(SOURCE_TAG, source), (TARGET_TAG, target)] {
        put_header(&mut file, tag, contents.len());
        file.extend(contents);
    }
    body.encode(&mut file);
    file
}

/// A translation from one language of exactly so many bytes, with the empty one as the other.
fn with_full_language(random: &mut Random, bytes: usize) -> Translation {
    let (source, mut target) = (Language::default(), full_language(random, bytes));
    if random.percent(30) {
        target.productions.swap(0, 1);
    }
    Translation { source, target, body: Body::default() }
}

/// Changes the range of one class of the source or of the target so that it is likely wrong.
fn wrong_range(random: &mut Random, translation: &mut Translation) {
    let range = if random.percent(70) { outside } else { related };
    let on_target = random.percent(20);
    let Translation { source, target, .. } = translation;
    with_one_range(random, if on_target { target } else { source }, range);
}

/// Changes one mapping so that it is likely wrong.
fn wrong_mapping(random: &mut Random, translation: &mut Translation) {
    let kinds = translation.source.kinds();
    let inside = if kinds == 0 { 0 } else { kind_in(random, kinds) };
    let outside = if kinds == u32::MAX { 31 } else { kind_in(random, !kinds) };
    let mapping = &mut translation.body.mapping;
    match random.below(4) {
        0 => mapping[inside as usize] = None,
        1 => mapping[outside as usize] = Some(random.below(KINDS) as u8),
        2 if translation.target.kinds() != u32::MAX => {
            mapping[inside as usize] = Some(kind_in(random, !translation.target.kinds()));
        }
        _ => mapping[inside as usize] = Some(random.below(KINDS) as u8),
    }
}

/// Adds, drops or renames one clause.
fn wrong_clauses(random: &mut Random, translation: &mut Translation) {
    let clauses: Vec<Clause> = translation.body.clauses.iter().collect();
    let mut table: BTreeMap<(u16, u8), Vec<u8>> =
        clauses.iter().map(|clause| (clause.place(), clause.code.to_vec())).collect();
    let code = clauses.first().map_or(vec![1, 0], |clause| clause.code.to_vec());
    if random.percent(50) && !clauses.is_empty() {
        let gone = random.pick(&clauses).place();
        table.remove(&gone);
    }
    if random.percent(50) {
        let number = random.pick(&[0, 0, 0, 1, 15]);
        table.entry((random.below(KINDS * 256) as u16, number)).or_insert(code);
    }
    let clauses = table.iter().map(|(&(key, number), code)| Clause { key, number, code });
    translation.body.clauses = clauses.collect();
}

/// Makes one code wrong.
fn wrong_codes(random: &mut Random, translation: &mut Translation) {
    let count = translation.body.clauses.len();
    if count == 0 {
        return;
    }
    let heights = Heights::new(&translation.target);
    let chosen = random.below(count);
    let mut changed = Clauses::default();
    let pairs = translation.due_clauses().zip(translation.body.clauses.iter());
    for (place, ((production, _, kind), clause)) in pairs.enumerate() {
        let arguments = uses_of(&translation.body, production.arguments());
        let coder = Coder { target: &translation.target, heights: &heights, arguments: &arguments };
        let wrong = coder.wrong_code(random, kind, clause.code);
        let code = if place == chosen { &wrong } else { clause.code };
        changed.push(Clause { code, ..clause });
    }
    translation.body.clauses = changed;
}

/// The counting language with a class 2 and production 1.3 of one token.
pub fn counting_with_tokens() -> Language {
    let mut language = counting_language();
    language.classes.push(Class::plain(2, 5, 9));
    language.productions.push(Production::new(1, 3, &[2]));
    language
}

/// A chain of so many levels over the counting language with tokens, which ends in a leaf, in a
/// token, or in one of two arguments of kinds 1 and 2.
pub fn chain_code_with_end(random: &mut Random, levels: usize) -> Vec<u8> {
    let (end, own): (&[u8], usize) = random.pick(&[
        (&[1, 0], 1),
        (&NUMBERED_END, 1),
        (&[1, 3, 2, 0, 7], 1),
        (&[1, 3, 2, 0, 7], 1),
        (&[3, 1], 1),
        (&[1, 3, 3, 2], 2),
    ]);
    [&[1, 1].repeat(levels.saturating_sub(own)), end].concat()
}

/// The end of a code that uses its first argument, of kind 1, by a number.
const NUMBERED_END: [u8; 3] = [4, 1, 5];

/// A translation of one production with arguments of kinds 1 and 2, by a code.
pub fn single_translation(code: &[u8]) -> Translation {
    let target = counting_with_tokens();
    let productions = vec![Production::new(3, 4, &[1, 2])];
    let source = Language { classes: target.classes.clone(), productions };
    let clauses = [Clause::plain(0x0304, code)].into_iter().collect();
    let mapping = cut_mapping(&source, |kind| if kind == 2 { 2 } else { 1 });
    let by_number = code.ends_with(&NUMBERED_END);
    let others = by_number.then_some(Numbered { kind: 1, number: 5, target: 1 });
    let others = others.into_iter().collect();
    Translation { source, target, body: Body { mapping, others, clauses } }
}

/// A translation with one code, a chain at or past the limit.
fn chain_translation(random: &mut Random) -> Translation {
    let levels = CODE_LEVELS as usize + random.below(2);
    single_translation(&chain_code_with_end(random, levels))
}

/// Gives a result kind of one of the languages a class too.
fn clash(random: &mut Random, translation: &mut Translation) {
    let language =
        if random.percent(50) { &mut translation.source } else { &mut translation.target };
    if let Some(production) = language.productions.first() {
        let class = Class::plain(production.result, 0, 1);
        let place = language.classes.partition_point(|other| other.kind < class.kind);
        language.classes.insert(place, class);
    }
}

/// Makes some of codes, clauses and mapping wrong.
pub fn wrong_body(random: &mut Random, translation: &mut Translation) {
    for wrong in [wrong_codes, wrong_clauses, wrong_mapping, wrong_range, wrong_numbers] {
        if random.percent(50) {
            wrong(random, translation);
        }
    }
}

/// Makes some of body and languages wrong.
fn several_wrong(random: &mut Random, translation: &mut Translation) {
    wrong_body(random, translation);
    if random.percent(50) {
        clash(random, translation);
    }
}

/// The bytes of a translation: valid, at a limit, wrong in one way, or damaged.
pub fn translation_file(random: &mut Random) -> Vec<u8> {
    let choice = random.below(36);
    if choice <= 1 && random.percent(30) {
        return full_translation_with_step(random, TRANSLATION_LIMIT + choice);
    }
    let mut value = match choice {
        0 => full_translation(random, TRANSLATION_LIMIT),
        1 => full_translation(random, TRANSLATION_LIMIT + 1),
        2 => with_full_language(random, LANGUAGE_LIMIT),
        3 => with_full_language(random, LANGUAGE_LIMIT + 1),
        4 => chain_translation(random),
        _ => translation(random),
    };
    match choice {
        5 | 6 => wrong_mapping(random, &mut value),
        7 | 26 => wrong_range(random, &mut value),
        8..=10 => wrong_clauses(random, &mut value),
        11..=14 => wrong_codes(random, &mut value),
        15 | 16 => clash(random, &mut value),
        32..=34 => wrong_numbers(random, &mut value),
        24 | 25 => several_wrong(random, &mut value),
        _ => {}
    }
    let mut bytes = value.encode();
    if choice > 4 && random.percent(20) {
        write_steps_within(random, &mut bytes);
    }
    match choice {
        17..=20 => damage_fields(random, &mut bytes),
        21..=23 => damage(random, &mut bytes),
        3 if random.percent(50) => bytes.truncate(random.within(3..=bytes.len())),
        _ => {}
    }
    bytes
}

/// An output length for a run: often exact or one short of it.
fn output_length(
    random: &mut Random,
    translation: &[u8],
    (root, number): (u32, u32),
    tree: &[u8],
) -> usize {
    const MOST: usize = 5000;
    let outcome = run(translation, root, number, tree, &mut [0; MOST]);
    let exact = outcome.length() as usize;
    match random.below(6) {
        0 | 1 => exact,
        2 => exact.saturating_sub(1),
        3 => random.below(exact + 10),
        4 => MOST,
        _ => exact + random.below(20),
    }
}

/// Code over the counting language that uses the first argument twice at each of some levels.
fn doubling_code(levels: usize) -> Vec<u8> {
    if levels == 0 {
        return vec![3, 1];
    }
    let below = doubling_code(levels - 1);
    [&[1, 2], &below[..], &below].concat()
}

/// A run whose result, or a part that is dropped, may be longer than any count.
fn endless_run_case(random: &mut Random) -> RunCase {
    let code = doubling_code(random.within(1..=4));
    let both: &[u8] = random.pick(&[&[3, 1], &[3, 2], &[1, 2, 3, 1, 3, 2], &[1, 1, 3, 2]]);
    let translation = counting_translation([&[1, 0], &code, both]).encode();
    let links = random.within(1..=62);
    let mut tree = [vec![2], vec![1; links], vec![0, 0]].concat();
    if random.percent(50) {
        tree = [vec![2, 0], vec![1; links], vec![0]].concat();
    }
    let output = output_length(random, &translation, (1, 0), &tree);
    RunCase { translation, root: 1, number: 0, tree, output }
}

/// A run of an identity on a chain about the limit of levels.
fn chain_run_case(random: &mut Random) -> RunCase {
    let (language, kind) = chain_language(random);
    let (translation, tree) = (identity(&language).encode(), chain_tree(random));
    let output = output_length(random, &translation, (u32::from(kind), 0), &tree);
    RunCase { translation, root: u32::from(kind), number: 0, tree, output }
}

/// One run in so many is on a long tree.
const RUNS_FOR_A_LONG_ONE: usize = 200;

/// A translation, a root, a tree and an output length.
pub fn run_case(random: &mut Random) -> RunCase {
    if random.below(RUNS_FOR_A_LONG_ONE) == 0 {
        return long_run_case(random).case;
    }
    if random.percent(5) {
        return endless_run_case(random);
    }
    if random.percent(4) {
        return chain_run_case(random);
    }
    if random.percent(12) {
        let bytes = translation_file(random);
        let tree = (0..random.below(6)).map(|_| random.byte()).collect();
        let (root, number) = (random.below(34) as u32, random.pick(&[0, 0, 0, 1, 256]));
        return RunCase { translation: bytes, root, number, tree, output: 64 };
    }
    let value = match random.below(3) {
        0 => translation(random),
        _ => {
            let language = language(random);
            let value = endomorphism(random, &language);
            if random.percent(30) {
                narrowed(random, value)
            } else {
                value
            }
        }
    };
    let (root, tree) = root_and_tree(random, &value.source);
    let number = root_number(random, &value, root);
    let translation = translation_bytes(random, &value);
    let output = output_length(random, &translation, (root, number), &tree);
    RunCase { translation, root, number, tree, output }
}
