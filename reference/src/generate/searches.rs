//! Searches: translations with small and large sources, targets that some source tree runs to and
//! targets that none does, and clauses that use an argument alone, twice or never.

use super::damage::damage_bytes;
use super::exact::{exact_language, exact_tree, EXACT_KIND};
use super::indexes::room_for;
use super::languages::name;
use super::numbers::has_numbers;
use super::random::Random;
use super::translations::{
    arrangement, cut_mapping, endomorphism, run_case, translation_bytes, RunCase,
};
use super::trees::{root_and_tree, Grower};
use crate::body::{Body, Clause};
use crate::code::ARGUMENT_SIGN;
use crate::language::{bit, Class, Language, Production, KINDS};
use crate::run::run;
use crate::search::{search, MOST_LEVELS};
use crate::translation::{read_translation, Translation};
use std::collections::BTreeMap;
use std::num::NonZeroU16;

/// The input of a search.
#[derive(Clone, Debug)]
pub struct SearchCase {
    pub translation: Vec<u8>,
    pub root: u32,
    pub tree: Vec<u8>,
    pub limit: u32,
    pub workspace: usize,
    pub output: usize,
}

/// The longest run of a source tree that is searched for, and the longest answer that is awaited.
const LONGEST_RUN: usize = 4000;
const LONGEST_FOUND: usize = 60_000;
/// The bytes of workspace for a byte of the tree with which the time is bounded.
const WORKSPACE_FOR_A_BYTE: usize = 32;

/// Up to this limit a search without workspace takes no long time, whatever the clauses are.
const SHORT_LIMIT: u32 = 5;

impl SearchCase {
    /// Whether the search takes no long time without workspace either: the limit is low, or no clause
    /// is an argument alone.
    pub fn needs_no_workspace(&self) -> bool {
        let alone = |clause: Clause| clause.code.first() == Some(&ARGUMENT_SIGN);
        let plain = |value: Translation| !value.body.clauses.iter().any(alone);
        self.limit <= SHORT_LIMIT || read_translation(&self.translation).map_or(true, plain)
    }

    /// The bytes of workspace with which the time is bounded.
    pub fn enough_workspace(&self) -> usize {
        WORKSPACE_FOR_A_BYTE * self.tree.len()
    }
}

/// Kinds of a small language: results, and classes.
const RESULTS: [u8; 3] = [1, 3, 5];
const CLASSES: [u8; 2] = [2, 4];

/// A class of one to three values.
fn small_class(random: &mut Random, kind: u8) -> Class {
    let (low, step) = (random.below(3) as u16, random.within(1..=3) as u16);
    let high = low + step * random.below(3) as u16;
    Class { step: NonZeroU16::new(step).expect("not 0"), ..Class::plain(kind, low, high) }
}

/// A language of few kinds with few values and productions; some kinds may have no tree.
fn small_language(random: &mut Random) -> Language {
    let classes = CLASSES[..random.within(1..=2)].iter().map(|&kind| small_class(random, kind));
    let classes: Vec<Class> = classes.collect();
    let results = &RESULTS[..random.within(1..=3)];
    let kinds: Vec<u8> = results.iter().copied().chain(CLASSES[..classes.len()].to_vec()).collect();
    let mut table = BTreeMap::new();
    for number in 0..random.within(1..=7) {
        let count = if number < results.len() { random.below(2) } else { random.below(4) };
        let arguments: Vec<u8> = (0..count).map(|_| random.pick(&kinds)).collect();
        let result = results[number % results.len()];
        let production = Production::new(result, name(random), &arguments);
        table.insert(production.key(), production);
    }
    Language { classes, productions: table.into_values().collect() }
}

/// A production of a source with its code.
type Entry = (Production, Vec<u8>);

/// A translation of productions, by rising key, each with its code, into trees of leaves and pairs.
fn into_pairs(entries: &[Entry]) -> Translation {
    let clauses = entries.iter().map(|(of, code)| Clause::plain(of.key(), code)).collect();
    let productions = entries.iter().map(|(production, _)| *production).collect();
    let source = Language { classes: vec![], productions };
    let mapping = cut_mapping(&source, |_| 1);
    let productions = vec![Production::new(1, 0, &[]), Production::new(1, 2, &[1, 1])];
    let target = Language { classes: vec![], productions };
    Translation { source, target, body: Body { mapping, clauses, ..Body::default() } }
}

/// The first of the kinds that lead to each other in cycles.
const CYCLE: u8 = 10;

/// The productions of a kind of a cycle of so many: bare arguments of every kind, a pair, and a leaf
/// for the first kinds.
fn cycle_entries(kind: u8, count: u8, leaves: u8) -> Vec<Entry> {
    let bare = (0..count).map(|name| (Production::new(kind, name, &[CYCLE + name]), vec![3, 1]));
    let pair = (Production::new(kind, 20, &[kind, CYCLE]), vec![1, 2, 3, 1, 3, 2]);
    let leaf = (Production::new(kind, 30, &[]), vec![1, 0]);
    let leaf = (kind < CYCLE + leaves).then_some(leaf);
    bare.chain([pair]).chain(leaf).collect()
}

/// A translation in which each kind has clauses that are arguments alone, in cycles, a pair, and a
/// leaf or, so that there is no tree at all, none.
fn cycles(random: &mut Random) -> Translation {
    let (count, leaves) = (random.within(1..=4) as u8, random.below(2) as u8);
    let kinds = CYCLE..CYCLE + count;
    let entries: Vec<Entry> = kinds.flat_map(|kind| cycle_entries(kind, count, leaves)).collect();
    into_pairs(&entries)
}

/// A translation with some clauses that use their first argument twice and drop others, whose first
/// trees are as deep as they may be.
fn doubles_and_drops(random: &mut Random) -> Translation {
    let (drops, chain) = (vec![3; random.below(3)], vec![3; random.pick(&[1, 1, 2, 3])]);
    let with_drops = |name| Production::new(1, name, &[&[1][..], &drops].concat());
    let mut entries = vec![
        (Production::new(1, 0, &[]), vec![1, 0]),
        (with_drops(1), vec![1, 2, 3, 1, 3, 1]),
        (Production::new(1, 2, &[1, 1]), vec![1, 2, 3, 1, 3, 2]),
        (with_drops(4), vec![1, 2, 1, 2, 3, 1, 3, 1, 3, 1]),
        (Production::new(3, 0, &chain), vec![1, 0]),
        (Production::new(3, 1, &[]), vec![1, 0]),
    ];
    let kept = random.bits();
    entries.retain(|(of, _)| of.result == 3 || of.name == 0 || kept >> of.name & 1 == 1);
    into_pairs(&entries)
}

/// A well-formed translation, mostly with a small source and with number 0 alone.
fn searched(random: &mut Random) -> Translation {
    let mut tries = (1..TRIES).map(|_| small_translation(random));
    let plain = tries.find(|value| value.body.is_plain());
    match plain {
        Some(value) if random.percent(95) => value,
        _ => small_translation(random),
    }
}

/// A well-formed translation, mostly with a small source; some have other numbers than 0.
fn small_translation(random: &mut Random) -> Translation {
    let language = small_language(random);
    match random.below(10) {
        0 => cycles(random),
        1 => doubles_and_drops(random),
        2..=4 => arrangement(random, &language),
        _ => endomorphism(random, &language),
    }
}

/// The run of some source tree of a translation, with the root kind, if one is found that is short.
fn some_run(random: &mut Random, value: &Translation, file: &[u8]) -> Option<(u32, Vec<u8>)> {
    let mut grower = Grower::new(&value.source);
    let kinds = grower.grown_kinds();
    let kind = *kinds.get(random.below(kinds.len().max(1)))?;
    let least = grower.heights.least(kind)?;
    let wanted = random.pick(&[1, 2, 3, 3, 4, 6, 16, 17]).max(least);
    grower.budget = random.pick(&[0, 4, 20]);
    let mut tree = Vec::new();
    grower.grow(random, kind, grower.heights.greatest(kind, wanted)?, &mut tree);
    let mut output = vec![0; LONGEST_RUN];
    let outcome = run(file, u32::from(kind), 0, &tree, &mut output);
    output.truncate(outcome.length() as usize);
    (outcome.number() == 0).then_some((u32::from(kind), output))
}

/// A root of the source, mostly one that is mapped to the same kind as another.
fn other_root(random: &mut Random, value: &Translation, root: u32) -> u32 {
    let kinds = value.source.kinds();
    let kinds: Vec<u8> = (0..KINDS as u8).filter(|&kind| kinds & bit(kind) != 0).collect();
    let mapped = |kind: u8| value.body.mapping.get(kind as usize).copied().flatten();
    let alike: Vec<u8> =
        kinds.iter().copied().filter(|&kind| mapped(kind) == mapped(root as u8)).collect();
    match random.below(20) {
        0 if !kinds.is_empty() => u32::from(random.pick(&kinds)),
        1..=5 if !alike.is_empty() => u32::from(random.pick(&alike)),
        6 if random.percent(30) => random.pick(&[32, 9, 256, u32::MAX]),
        _ => root,
    }
}

/// A root of the source and a target tree: the run of a source tree, or any tree of the target.
fn root_and_target(random: &mut Random, value: &Translation, file: &[u8]) -> (u32, Vec<u8>) {
    let by_run = if random.percent(80) { some_run(random, value, file) } else { None };
    let (root, mut tree) = by_run.unwrap_or_else(|| {
        let (kind, tree) = root_and_tree(random, &value.target);
        let mapped = |source: &u8| value.body.mapping[*source as usize].map(u32::from);
        let root = (0..KINDS as u8).find(|source| mapped(source) == Some(kind));
        (root.map_or(kind, u32::from), tree)
    });
    if random.percent(12) {
        damage_bytes(random, &mut tree);
    }
    (other_root(random, value, root), tree)
}

/// A limit of levels: mostly small or the greatest, seldom one that is refused.
fn limit(random: &mut Random) -> u32 {
    match random.below(16) {
        0 => random.pick(&[0, 17, 18, 256, 65_552, u32::MAX]),
        1 | 2 => 1,
        3..=9 => random.within(2..=5) as u32,
        10..=12 => random.within(1..=MOST_LEVELS) as u32,
        _ => MOST_LEVELS as u32,
    }
}

/// A length of the workspace: as much as bounds the time or, if less does too, some bytes or none.
fn workspace(random: &mut Random, case: &SearchCase) -> usize {
    let enough = case.enough_workspace();
    match random.below(8) {
        0 => enough,
        1 | 2 => enough + random.below(100),
        _ if !case.needs_no_workspace() => enough,
        3 | 4 => 0,
        5 => random.below(64),
        _ => random.below(enough + 1),
    }
}

/// The case with a workspace, and an output that is exact, a little short or longer.
fn with_buffers(random: &mut Random, mut case: SearchCase) -> SearchCase {
    case.workspace = workspace(random, &case);
    let mut output = vec![0; LONGEST_FOUND];
    let SearchCase { translation, root, tree, limit, .. } = &case;
    let outcome = search(translation, *root, tree, *limit, &mut [], &mut output);
    case.output = room_for(random, outcome.length() as usize);
    case
}

/// A search in the translation of a run, which may be refused, for the result of the run.
fn run_search(random: &mut Random) -> SearchCase {
    let RunCase { translation, root, number, tree, .. } = run_case(random);
    let mut output = vec![0; LONGEST_RUN];
    let outcome = run(&translation, root, number, &tree, &mut output);
    output.truncate(outcome.length() as usize);
    let tree = if outcome.number() == 0 { output } else { tree };
    let tree = tree[..tree.len().min(LONGEST_RUN)].to_vec();
    let limit = limit(random);
    SearchCase { translation, root, tree, limit, workspace: 0, output: 0 }
}

/// A search in a translation with a small source.
pub fn small_search_case(random: &mut Random) -> SearchCase {
    let value = searched(random);
    let translation = translation_bytes(random, &value);
    debug_assert!(read_translation(&translation).is_ok());
    let (root, tree) = root_and_target(random, &value, &translation);
    let limit = limit(random);
    let case = SearchCase { translation, root, tree, limit, workspace: 0, output: 0 };
    with_buffers(random, case)
}

/// One search in so many is for a large tree, of up to so many bytes.
const CASES_FOR_A_LARGE_ONE: usize = 300;
const LARGEST: usize = 200_000;

/// So many translations are tried for a run of some bytes.
const TRIES: usize = 12;
const SOME_BYTES: usize = 1000;

/// A search for the run of a large source tree, which is mostly large too.
fn large_search(random: &mut Random) -> SearchCase {
    let mut tries = (1..TRIES).map(|_| large_run_search(random));
    let large =
        |case: &SearchCase| case.tree.len() >= SOME_BYTES && !has_numbers(&case.translation);
    let large = tries.find(large);
    large.unwrap_or_else(|| large_run_search(random))
}

/// A search for the run of a large source tree by some translation.
fn large_run_search(random: &mut Random) -> SearchCase {
    let (language, kind) = (exact_language(), u32::from(EXACT_KIND));
    let value = match random.below(3) {
        0 => endomorphism(random, &language),
        _ => arrangement(random, &language),
    };
    let (bytes, translation) = (random.within(500..=20_000), translation_bytes(random, &value));
    let (source, mut tree) = (exact_tree(random, bytes), vec![0; LARGEST]);
    let outcome = run(&translation, kind, 0, &source, &mut tree);
    tree.truncate(outcome.length() as usize);
    let limit = MOST_LEVELS as u32;
    SearchCase { translation, root: kind, tree, limit, workspace: 0, output: 0 }
}

/// A translation, a root of its source, a target tree, a limit, and the lengths of workspace and
/// output.
pub fn search_case(random: &mut Random) -> SearchCase {
    if random.below(CASES_FOR_A_LARGE_ONE) == 0 {
        let case = large_search(random);
        return with_buffers(random, case);
    }
    if random.percent(70) {
        return small_search_case(random);
    }
    let case = run_search(random);
    with_buffers(random, case)
}
