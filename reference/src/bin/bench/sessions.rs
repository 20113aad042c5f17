//! Times of searches for sessions of the strap whose minutes differ, with the workspace that is
//! said to be enough, with less, and with none.

use crate::measure::{compare, growth, repeated};
use crate::search::{cycles, wide, LEAF, OTHER};
use crate::{print_growth_of, print_line};
use algebra::raw as library;
use algebra::SEARCH_WORKSPACE;
use reference::generate::Random;
use std::hint::black_box;

/// The words of two clubs, each with those of the strap.
const PYRAMID: &[u8] = include_bytes!("../../../../examples/pyramid/plan.translation");
const STRAP: &[u8] = include_bytes!("../../../../examples/strap/plan.translation");
/// The kind of a block, and the greatest limit.
const ROOT: u32 = 1;
const LIMIT: u32 = 16;
/// Names of the strap: a row, a sequence of two blocks, a rest.
const ROW: u8 = 1;
const SEQUENCE: u8 = 2;
const REST: u8 = 3;
/// The levels of the sessions above their rows and rests: 31, 255, 1,023, 8,191 and 65,535 bytes.
const HEIGHTS: [u32; 5] = [3, 6, 8, 11, 14];
/// The session of 1,023 bytes, from which growth is measured, and that of 255 bytes.
const GROWN_FROM: u32 = 8;
const SHORT: u32 = 6;

/// Rows and rests in pairs of pairs, so many levels of sequences above them.
fn session(random: &mut Random, height: u32) -> Vec<u8> {
    if height == 0 {
        let name = if random.percent(70) { ROW } else { REST };
        return vec![name, 0, 1 + random.below(240) as u8];
    }
    let first = session(random, height - 1);
    [&[SEQUENCE], &first[..], &session(random, height - 1)].concat()
}

/// Searches by both sides, each with buffers of its own.
struct Search<'a> {
    translation: &'a [u8],
    limit: u32,
    workspace: Vec<u8>,
    for_a_byte: usize,
    outputs: [Vec<u8>; 2],
}

impl<'a> Search<'a> {
    /// Buffers for a tree of so many bytes, with so much workspace for each.
    fn new(translation: &'a [u8], limit: u32, bytes: usize, workspace: usize) -> Search<'a> {
        let output = vec![0; 4 * bytes + 64];
        let outputs = [output.clone(), output];
        Search {
            translation,
            limit,
            workspace: vec![0; workspace * bytes],
            for_a_byte: workspace,
            outputs,
        }
    }

    /// Number and length by the library.
    fn by_library(&mut self, tree: &[u8]) -> (u32, u64) {
        let workspace = &mut self.workspace[..self.for_a_byte * tree.len()];
        let output = &mut self.outputs[0];
        let translation = black_box(self.translation);
        let answer = library::search(translation, ROOT, tree, self.limit, workspace, output);
        (answer.number, answer.length)
    }

    /// Number and length by the reference, whose memory is its own.
    fn by_reference(&mut self, tree: &[u8]) -> (u32, u64) {
        let translation = black_box(self.translation);
        let output = &mut self.outputs[1];
        let outcome = reference::search(translation, ROOT, tree, self.limit, &mut [], output);
        (outcome.number(), outcome.length())
    }

    /// Both give the same number, length and bytes, and are timed.
    fn bench(&mut self, name: &str, tree: &[u8], number: u32) {
        let expected = self.by_reference(tree);
        assert_eq!((expected.0, self.by_library(tree)), (number, expected), "{name}");
        assert_eq!(self.outputs[0], self.outputs[1]);
        let mut other = Search::new(self.translation, self.limit, tree.len(), 0);
        let timing = compare(|| self.by_library(tree), || other.by_reference(tree));
        print_line(&format!("search, {name}"), tree.len(), timing);
    }
}

/// Measures sessions of all sizes through the words of a club, found and not found, and how the
/// time for a byte grows.
fn bench_club(name: &str, translation: &[u8]) {
    let sessions = HEIGHTS.map(|height| session(&mut Random::new(5), height));
    for (height, tree) in HEIGHTS.into_iter().zip(&sessions) {
        let mut found = Search::new(translation, LIMIT, tree.len(), SEARCH_WORKSPACE);
        found.bench(&format!("{name}, found"), tree, 0);
        let mut none = Search::new(translation, height, tree.len(), SEARCH_WORKSPACE);
        none.bench(&format!("{name}, none"), tree, 23);
    }
    let small = session(&mut Random::new(5), GROWN_FROM);
    let large = &sessions[HEIGHTS.len() - 1];
    let mut by = [(); 2].map(|()| Search::new(translation, LIMIT, large.len(), SEARCH_WORKSPACE));
    let [library, reference] = &mut by;
    let growth = growth(
        &repeated(&small, large),
        large,
        |tree| library.by_library(tree),
        |tree| reference.by_reference(tree),
    );
    let sizes = format!("{} over {} bytes", large.len(), small.len());
    print_growth_of(&format!("search, {name}"), &sizes, growth);
}

/// Measures a session of 255 bytes with half the workspace and with none, and cycles of bare
/// arguments with none.
fn bench_less() {
    let tree = session(&mut Random::new(5), SHORT);
    for (share, workspace) in [("half the", SEARCH_WORKSPACE / 2), ("no", 0)] {
        let mut search = Search::new(PYRAMID, LIMIT, tree.len(), workspace);
        search.bench(&format!("pyramid, {share} workspace"), &tree, 0);
    }
    let cycles = cycles();
    for (last, number) in [(LEAF, 0), (OTHER, 23)] {
        let tree = wide(&mut Random::new(9), tree.len(), last);
        let name = if number == 0 { "found" } else { "none" };
        let mut search = Search::new(&cycles, LIMIT, tree.len(), 0);
        search.bench(&format!("cycles, {name}, no workspace"), &tree, number);
    }
}

/// Measures a session of 8,191 bytes, which is longer than the search's own memory is meant for,
/// with half the workspace that it asks for.
fn bench_long() {
    let tree = session(&mut Random::new(5), 11);
    let mut search = Search::new(PYRAMID, LIMIT, tree.len(), SEARCH_WORKSPACE / 2);
    search.bench("pyramid, half the workspace", &tree, 0);
}

/// Measures all of these.
pub fn bench() {
    bench_club("pyramid", PYRAMID);
    bench_club("strap", STRAP);
    bench_less();
    bench_long();
}
