//! Times of searches that a plain search would take too long for.

use crate::measure::{compare, growth, repeated};
use crate::{print_growth_of, print_line};
use algebra::raw as library;
use algebra::SEARCH_WORKSPACE as WORKSPACE_FOR_A_BYTE;
use reference::files::{clause, mapping, production, translation};
use reference::generate::Random;
use std::hint::black_box;

/// The root kind of the searches, and the greatest limit.
const ROOT: u32 = 1;
const LIMIT: u32 = 16;
/// An output that is long enough for what is found.
const OUTPUT: usize = 4 << 20;

/// Names of the target, whose kind is 1: a leaf, a link, a pair, eight blocks, and another leaf.
pub const LEAF: u8 = 0;
const LINK: u8 = 1;
const PAIR: u8 = 2;
const EIGHT: u8 = 8;
pub const OTHER: u8 = 9;

/// The kinds of the source that lead to each other by bare arguments.
const CYCLE: [u8; 8] = [1, 3, 4, 5, 6, 7, 8, 9];

/// A production of the source with its code.
type Entry = (u8, u8, Vec<u8>, Vec<u8>);

/// A production of the target with all its arguments in order, as a code.
fn kept(name: u8, count: u8) -> Vec<u8> {
    [1, name].into_iter().chain((1..=count).flat_map(|number| [3, number])).collect()
}

/// A translation into the target; every kind is mapped to its kind.
fn into_target(entries: &[Entry], kinds: &[u8]) -> Vec<u8> {
    let target: [(u8, usize); 5] = [(LEAF, 0), (LINK, 1), (PAIR, 2), (EIGHT, 8), (OTHER, 0)];
    let target = target.map(|(name, count)| production(1, name, &vec![1; count])).concat();
    let source = entries.iter().map(|(result, name, of, _)| production(*result, *name, of));
    let clauses = entries.iter().map(|(result, name, _, code)| clause(*result, *name, code));
    let mappings = kinds.iter().map(|&kind| mapping(kind, 1));
    let body: Vec<Vec<u8>> = mappings.chain(clauses).collect();
    translation(&source.collect::<Vec<_>>().concat(), &target, &body.concat())
}

/// Every kind leads to every other by a bare argument, and every production of the target but one
/// leaf is made; a tree with that leaf has no source.
pub fn cycles() -> Vec<u8> {
    let entries = CYCLE.iter().flat_map(|&kind| {
        let bare = (20..).zip(CYCLE).map(move |(name, of)| (kind, name, vec![of], vec![3, 1]));
        let first = (kind, LEAF, vec![], kept(LEAF, 0));
        let link = (kind, LINK, vec![kind], kept(LINK, 1));
        let eight = (kind, EIGHT, vec![kind; 8], kept(EIGHT, 8));
        [first, link, eight].into_iter().chain(bare)
    });
    into_target(&entries.collect::<Vec<_>>(), &CYCLE)
}

/// A tree of exactly so many bytes, of leaves, links and eight blocks, which ends in a leaf.
pub fn wide(random: &mut Random, bytes: usize, last: u8) -> Vec<u8> {
    match bytes {
        ..2 => vec![last],
        2..9 => [vec![LINK], wide(random, bytes - 1, last)].concat(),
        _ => {
            let mut left = bytes - 1;
            let mut parts = |others: usize| {
                let part = random.within(left.div_ceil(2 * others + 2)..=left / (others + 1));
                left -= part;
                wide(random, part, LEAF)
            };
            let first = (1..8).rev().flat_map(&mut parts).collect::<Vec<u8>>();
            [vec![EIGHT], first, wide(random, left, last)].concat()
        }
    }
}

/// Many clauses that use twice an argument of a kind which is only ever the other leaf, and behind
/// them one that uses an argument twice and can be followed.
fn doubling() -> Vec<u8> {
    let equal = vec![1, PAIR, 3, 1, 3, 1];
    let mut entries = vec![(1, 0, vec![], kept(LEAF, 0))];
    entries.extend((1..20).map(|name| (1, name, vec![4], equal.clone())));
    entries.push((1, 20, vec![1], equal));
    entries.push((4, 0, vec![], kept(OTHER, 0)));
    into_target(&entries, &[1, 4])
}

/// Equal blocks in pairs, of about so many bytes; from 65,536 on they have more than 16 levels.
fn doubled(bytes: usize) -> Vec<u8> {
    match bytes {
        ..3 => vec![LEAF],
        _ => {
            let below = doubled(bytes / 2);
            [&[PAIR], &below[..], &below].concat()
        }
    }
}

/// Each link has an argument that is dropped, whose first tree is a chain of all levels left.
fn dropping() -> Vec<u8> {
    let entries = [
        (1, LEAF, vec![], kept(LEAF, 0)),
        (1, LINK, vec![1, 3], kept(LINK, 1)),
        (1, EIGHT, vec![1; 8], kept(EIGHT, 8)),
        (3, 0, vec![3], kept(LEAF, 0)),
        (3, 1, vec![], kept(LEAF, 0)),
    ];
    into_target(&entries, &[1, 3])
}

/// A search with enough workspace by both sides; gives number and length.
struct Both {
    translation: Vec<u8>,
    workspace: Vec<u8>,
    output: Vec<u8>,
}

impl Both {
    /// Searches by the library.
    fn by_library(&mut self, tree: &[u8]) -> (u32, u64) {
        let workspace = &mut self.workspace[..WORKSPACE_FOR_A_BYTE * tree.len()];
        let output = &mut self.output;
        let answer =
            library::search(black_box(&self.translation), ROOT, tree, LIMIT, workspace, output);
        (answer.number, answer.length)
    }

    /// Searches by the reference.
    fn by_reference(&mut self, tree: &[u8]) -> (u32, u64) {
        let workspace = &mut self.workspace[..WORKSPACE_FOR_A_BYTE * tree.len()];
        let output = &mut self.output;
        let outcome =
            reference::search(black_box(&self.translation), ROOT, tree, LIMIT, workspace, output);
        (outcome.number(), outcome.length())
    }
}

/// Measures searches for trees of three sizes, which give a number, and how the time for a byte
/// grows.
fn bench_searches(name: &str, translation: Vec<u8>, trees: [Vec<u8>; 3], number: u32) {
    let longest = trees.iter().map(Vec::len).max().unwrap_or(0);
    let workspace = vec![0; WORKSPACE_FOR_A_BYTE * longest];
    let mut library = Both { translation, workspace, output: vec![0; OUTPUT] };
    let mut reference = Both { translation: library.translation.clone(), ..Both::empty(longest) };
    for tree in &trees {
        let expected = reference.by_reference(tree);
        assert_eq!((expected.0, library.by_library(tree)), (number, expected), "{name}");
        assert_eq!(library.output, reference.output);
        let timing = compare(|| library.by_library(tree), || reference.by_reference(tree));
        print_line(&format!("search, {name}"), tree.len(), timing);
    }
    let [small, _, large] = &trees;
    let growth = growth(
        &repeated(small, large),
        large,
        |tree| library.by_library(tree),
        |tree| reference.by_reference(tree),
    );
    let sizes = format!("{} over {} bytes", large.len(), small.len());
    print_growth_of(&format!("search, {name}"), &sizes, growth);
}

impl Both {
    /// Buffers for trees of so many bytes, without a translation.
    fn empty(bytes: usize) -> Both {
        let workspace = vec![0; WORKSPACE_FOR_A_BYTE * bytes];
        Both { translation: vec![], workspace, output: vec![0; OUTPUT] }
    }
}

/// Measures searches without an answer through cycles of bare arguments, for equal blocks, and with
/// dropped arguments whose first trees are deep.
pub fn bench() {
    let sizes = [1000, 10_000, 100_000];
    let wide = |last| sizes.map(|bytes| wide(&mut Random::new(9), bytes, last));
    bench_searches("cycles, none", cycles(), wide(OTHER), 23);
    bench_searches("cycles, found", cycles(), wide(LEAF), 0);
    bench_searches("equal blocks", doubling(), [1000, 10_000, 60_000].map(doubled), 0);
    bench_searches("deep dropped blocks", dropping(), wide(LEAF), 0);
}
