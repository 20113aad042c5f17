//! Load tables: ones for a language with figures of all sizes, damaged ones, and scores and joins
//! at their limits.

use super::codes::Coder;
use super::damage::{damage, damage_fields, put_together, take_apart, Part};
use super::heights::Heights;
use super::languages::{encoded, language};
use super::long_trees::long_tree_case;
use super::numbers::uses_of;
use super::random::Random;
use super::translations::{
    arrangement, cut_mapping, endomorphism, full_translation, run_case, translation,
    translation_bytes, translation_file, RunCase,
};
use super::trees::{tree_case, TreeCase};
use crate::body::{Body, Clause};
use crate::field::put_header;
use crate::join_table;
use crate::language::{read_language, Class, Language, Production};
use crate::translation::{read_translation, Translation, TRANSLATION_LIMIT};

/// The input of a score.
#[derive(Clone, Debug)]
pub struct ScoreCase {
    pub language: Vec<u8>,
    pub root: u32,
    pub tree: Vec<u8>,
    pub table: Vec<u8>,
}

/// The input of a join of a table onto a translation.
#[derive(Clone, Debug)]
pub struct JoinTableCase {
    pub translation: Vec<u8>,
    pub table: Vec<u8>,
    pub output: usize,
}

const TABLE_TAG: u8 = 0x24;
/// The greatest score of a node.
const MOST_SCORE: i64 = 1_000_000_000;
/// One score in so many is of a long tree.
const CASES_FOR_A_LONG_ONE: usize = 300;

/// How large the figures of a table are.
#[derive(Clone, Copy)]
enum Figures {
    /// From -1 to 1.
    Least,
    /// From -3 to 3.
    Small,
    /// Some hundreds.
    Middle,
    /// At the ends of the range and about its root, or any.
    Large,
}

/// Figures of some size.
fn any_figures(random: &mut Random) -> Figures {
    let all = [Figures::Least, Figures::Least, Figures::Small, Figures::Middle, Figures::Large];
    random.pick(&all)
}

/// A figure, which may be negative.
fn figure(random: &mut Random, figures: Figures) -> i16 {
    match figures {
        Figures::Least => random.pick(&[-1, 0, 1]),
        Figures::Small => random.within(0..=6) as i16 - 3,
        Figures::Middle => random.within(0..=1000) as i16 - 500,
        Figures::Large => match random.below(4) {
            0 => random.pick(&[i16::MIN, i16::MAX, 1 - i16::MAX, -1, 0, 1]),
            1 => random.pick(&[181, 182, -181, -182, 256, -256, 128]),
            _ => random.bits() as i16,
        },
    }
}

/// Appends the field of a production with figures made one by one.
fn put_line(production: &Production, table: &mut Vec<u8>, mut figure: impl FnMut() -> i16) {
    let count = production.arguments().len();
    put_header(table, TABLE_TAG, 4 + 2 * count);
    table.extend_from_slice(&production.key().to_be_bytes());
    (0..=count).for_each(|_| table.extend_from_slice(&figure().to_be_bytes()));
}

/// A table of a language with figures made one by one: of each production the constant, then the
/// factors.
fn table_by(language: &Language, mut figure: impl FnMut() -> i16) -> Vec<u8> {
    let mut table = Vec::new();
    language.productions.iter().for_each(|line| put_line(line, &mut table, &mut figure));
    table
}

/// A table of a language with random figures.
fn table_of(random: &mut Random, language: &Language, figures: Figures) -> Vec<u8> {
    table_by(language, || figure(random, figures))
}

/// The table of an accepted language in which every figure is 1.
pub fn unit_table(language: &[u8]) -> Vec<u8> {
    table_by(&read_language(language).expect("an accepted language"), || 1)
}

/// The table of the target of an accepted translation in which every figure is 1.
pub fn unit_target_table(translation: &[u8]) -> Vec<u8> {
    let translation = read_translation(translation).expect("an accepted translation");
    table_by(&translation.target, || 1)
}

/// A field of a table for one production more, before or behind the others or anywhere.
fn extra_part(random: &mut Random) -> Part {
    let (result, name) = (random.below(33) as u8, random.byte());
    let contents = [vec![result, name], vec![0; 2 * random.within(1..=3)]].concat();
    Part { tag: TABLE_TAG, contents }
}

/// Makes a table wrong, mostly in its fields: other keys, lengths, tags, number or order.
fn damage_table(random: &mut Random, table: &mut Vec<u8>) {
    let Some(mut parts) = take_apart(table) else { return };
    let place = random.below(parts.len() + 1);
    match (random.below(10), parts.get_mut(place)) {
        (0, _) => parts.insert(place, extra_part(random)),
        (1, Some(_)) => drop(parts.remove(place)),
        (2, Some(part)) => part.contents.extend_from_slice(&[0, 0]),
        (3, Some(part)) => part.contents.truncate(2 * random.below(4)),
        (4, Some(part)) => part.contents[0] = random.pick(&[0, 31, 32, 255]),
        (5, Some(part)) => part.contents[1] = part.contents[1].wrapping_add(1),
        (6, Some(part)) => part.tag = random.pick(&[0x23, 0x25, 0x12]),
        (7, Some(part)) => part.contents.push(random.byte()),
        (8, _) => return damage_fields(random, table),
        _ => return damage(random, table),
    }
    *table = put_together(&parts);
}

/// A table for the language of a case, sometimes damaged; any bytes if that is refused.
fn table_for(random: &mut Random, language: &[u8]) -> Vec<u8> {
    let Ok(language) = read_language(language) else {
        return (0..random.below(12)).map(|_| random.byte()).collect();
    };
    let figures = any_figures(random);
    let mut table = table_of(random, &language, figures);
    if random.percent(15) {
        damage_table(random, &mut table);
    }
    table
}

/// A language, a root, a tree and a table.
pub fn score_case(random: &mut Random) -> ScoreCase {
    if random.percent(8) {
        return edge_score_case(random);
    }
    let long = random.below(CASES_FOR_A_LONG_ONE) == 0;
    let TreeCase { language, root, tree } =
        if long { long_tree_case(random) } else { tree_case(random) };
    let table = table_for(random, &language);
    ScoreCase { language, root, tree, table }
}

/// Names of the language for limits: a leaf with a token, a link, a pair, and another link.
const LEAF: u8 = 0;
const LINK: u8 = 1;
const PAIR: u8 = 2;
const OTHER: u8 = 3;

/// The language for limits: a class 2 of all values, and kind 1.
fn edge_language() -> Language {
    let arguments: [&[u8]; 4] = [&[2], &[1], &[1, 1], &[1]];
    let productions = (LEAF..).zip(arguments).map(|(name, of)| Production::new(1, name, of));
    Language { classes: vec![Class::plain(2, 0, u16::MAX)], productions: productions.collect() }
}

/// A table of the language for limits: constant and factors of each production.
fn edge_table(leaf: [i16; 2], link: [i16; 2], pair: [i16; 3], other: [i16; 2]) -> Vec<u8> {
    let figures = [&leaf[..], &link, &pair, &other].concat();
    let mut figures = figures.into_iter();
    table_by(&edge_language(), || figures.next().expect("as many figures"))
}

/// A token, a factor and a constant that make a wanted score, if they are found.
fn leaf_for(random: &mut Random, wanted: i64) -> Option<(u16, [i16; 2])> {
    let least = (wanted.abs() / i64::from(i16::MAX)) as usize + 1;
    let value = random.within(least.min(65_535)..=65_535) as u16;
    let factor = wanted / i64::from(value);
    let constant = wanted - factor * i64::from(value);
    Some((value, [i16::try_from(constant).ok()?, i16::try_from(factor).ok()?]))
}

/// A score at the limits or one past them: of a leaf, and of what is made of it above.
fn edge_score_case(random: &mut Random) -> ScoreCase {
    let wanted = MOST_SCORE + random.pick(&[-1, 0, 0, 0, 1, 1]);
    let wanted = wanted * random.pick(&[-1, 1]);
    let (value, leaf) = loop {
        if let Some(leaf) = leaf_for(random, wanted) {
            break leaf;
        }
    };
    let leaf_tree = [&[LEAF], &value.to_be_bytes()[..]].concat();
    let around: &[u8] = random.pick(&[&[], &[LINK], &[LINK, LINK], &[OTHER, LINK]]);
    let tree = match random.below(3) {
        0 => [&[PAIR], &leaf_tree[..], &leaf_tree].concat(),
        _ => [around, &leaf_tree].concat(),
    };
    let link = [random.pick(&[0, 0, 1, -1]), random.pick(&[1, -1, -1, 0])];
    let pair = random.pick(&[[0, 1, -1], [0, 2, -1], [1, 2, -1], [0, -2, 1], [0, 32_767, -32_767]]);
    let table = edge_table(leaf, link, pair, [0, random.pick(&[0, 1, -1])]);
    ScoreCase { language: encoded(&edge_language()), root: 1, tree, table }
}

/// A translation of one production, with arguments of kinds 1 and 2, into the language for limits.
fn edge_translation(kind: u8, code: &[u8]) -> Translation {
    let target = edge_language();
    let productions = vec![Production::new(3, 4, &[1, 2])];
    let source = Language { classes: target.classes.clone(), productions };
    let clauses = [Clause::plain(0x0304, code)].into_iter().collect();
    let mapping = cut_mapping(&source, |from| if from == 3 { kind } else { from });
    Translation { source, target, body: Body { mapping, clauses, ..Body::default() } }
}

/// A token at the root of a code, at the limit or one past it.
fn edge_token(random: &mut Random) -> (Translation, Vec<u8>) {
    let value: u16 = random.pick(&[0, 32_767, 32_767, 32_768, 32_768, 65_535]);
    let code = [&[2], &value.to_be_bytes()[..]].concat();
    let table = table_of(random, &edge_language(), Figures::Large);
    (edge_translation(2, &code), table)
}

/// A leaf of a code whose constant is at a limit or one past it, alone or below another production.
fn edge_leaf(random: &mut Random) -> (Translation, Vec<u8>) {
    let wanted = random.pick(&[32_767, 32_768, -32_768, -32_769]);
    let (value, factor, constant) = loop {
        let (value, factor) = (random.bits() as u16, random.pick(&[1, -1, 2, -2, 0, 7]));
        let constant = wanted - i64::from(factor) * i64::from(value);
        if let Ok(constant) = i16::try_from(constant) {
            break (value, factor, constant);
        }
    };
    let around: &[u8] = random.pick(&[&[], &[1, OTHER], &[1, OTHER, 1, OTHER]]);
    let code = [around, &[1, LEAF, 2], &value.to_be_bytes()].concat();
    let other = [random.pick(&[0, 0, 1, -1]), random.pick(&[0, 1, -1])];
    let table = edge_table([constant, factor], [0, 1], [0, 1, 1], other);
    (edge_translation(1, &code), table)
}

/// Links around an argument whose factors make a product about the limit.
fn edge_factor(random: &mut Random) -> (Translation, Vec<u8>) {
    let (one, more) = random.pick(&[
        (181, 181),
        (181, 182),
        (-182, 180),
        (256, 128),
        (-256, 128),
        (256, -128),
        (32_767, 1),
        (-32_768, 1),
        (-32_768, -1),
    ]);
    let code: &[u8] = random.pick(&[
        &[1, LINK, 1, OTHER, 3, 1],
        &[1, OTHER, 1, LINK, 3, 1],
        &[1, PAIR, 1, LINK, 3, 1, 1, LINK, 3, 1],
        &[1, PAIR, 1, LINK, 1, OTHER, 3, 1, 1, LINK, 3, 1],
    ]);
    let pair = [random.pick(&[0, 1]), random.pick(&[0, 1, -1]), random.pick(&[0, 1, -1])];
    let table = edge_table([0, 1], [0, one], pair, [0, more]);
    (edge_translation(1, code), table)
}

/// A random code over the language for limits, with large or small figures.
fn edge_code(random: &mut Random) -> (Translation, Vec<u8>) {
    let target = edge_language();
    let heights = Heights::new(&target);
    let arguments = uses_of(&edge_translation(1, &[3, 1]).body, &[1, 2]);
    let coder = Coder { target: &target, heights: &heights, arguments: &arguments };
    let code = coder.code(random, 1).unwrap_or_else(|| vec![3, 1]);
    let figures = any_figures(random);
    let table = table_of(random, &target, figures);
    (edge_translation(1, &code), table)
}

/// A well-formed translation and a table of its target.
fn joined(random: &mut Random) -> (Translation, Vec<u8>) {
    let value = match random.below(12) {
        0 => return edge_token(random),
        1 => return edge_leaf(random),
        2 => return edge_factor(random),
        3 | 4 => return edge_code(random),
        5 => full_translation(random, TRANSLATION_LIMIT),
        6 | 7 => {
            let language = language(random);
            arrangement(random, &language)
        }
        8 | 9 => {
            let language = language(random);
            endomorphism(random, &language)
        }
        _ => translation(random),
    };
    let figures = any_figures(random);
    let table = table_of(random, &value.target, figures);
    (value, table)
}

/// An output length for a joined table: often exact or one short of it.
fn output_length(random: &mut Random, exact: usize) -> usize {
    match random.below(6) {
        0..=2 => exact,
        3 => exact.saturating_sub(1),
        4 => random.below(exact + 1),
        _ => exact + random.below(20),
    }
}

/// No joined table is longer.
const MOST_TABLE: usize = 5000;

/// A translation, a table and an output length.
pub fn join_table_case(random: &mut Random) -> JoinTableCase {
    if random.percent(25) {
        let translation = translation_file(random);
        let table = (0..random.below(8)).map(|_| random.byte()).collect();
        return JoinTableCase { translation, table, output: random.below(40) };
    }
    let (value, mut table) = joined(random);
    if random.percent(12) {
        damage_table(random, &mut table);
    }
    let translation = translation_bytes(random, &value);
    let outcome = join_table(&translation, &table, &mut [0; MOST_TABLE]);
    let output = output_length(random, outcome.length() as usize);
    JoinTableCase { translation, table, output }
}

/// A run with a table of the target.
#[derive(Clone, Debug)]
pub struct ScoredRunCase {
    pub run: RunCase,
    pub table: Vec<u8>,
}

/// A run by an accepted translation with a table of the target, mostly with small figures.
pub fn scored_run_case(random: &mut Random) -> ScoredRunCase {
    loop {
        let run = run_case(random);
        if let Ok(translation) = read_translation(&run.translation) {
            let figures = any_figures(random);
            let table = table_of(random, &translation.target, figures);
            return ScoredRunCase { run, table };
        }
    }
}
