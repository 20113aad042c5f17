//! What holds of the library by itself: laws of runs, sums and joins, of edits, searches, masks and
//! loose plans.

use super::Finding;
use algebra::raw as library;
use reference::call::library_edit;
use reference::generate::{law_pack, EditCase, MaskCase, Random, ScoreCase, SearchCase};
use reference::laws::edits::{self, law_of_edits};
use reference::laws::loose::{self, law_of_loose};
use reference::laws::masks::law_of_masks;
use reference::laws::search::{self, law_of_searches};
use reference::laws::{law_of_runs, law_of_sums, laws_of_joins, Answer, Broken, Operations, Said};

/// The operations of the library, with the least room to reduce.
const LIBRARY: Operations = Operations { reduce: &reduce, run: &run };

/// Reduces a pack.
fn reduce(pack: &[u8]) -> Answer {
    let (mut workspace, mut output) = (vec![0xAA; 65_536], vec![0xBB; 4096]);
    let answer = library::reduce(pack, &mut workspace, &mut output);
    Answer::new(answer.number, answer.length, output)
}

/// Runs a translation by a number.
fn run(translation: &[u8], root: u32, number: u32, tree: &[u8], output: usize) -> Answer {
    let mut output = vec![0xCC; output];
    let answer = library::run(translation, root, number, tree, &mut output);
    Answer::new(answer.number, answer.length, output)
}

/// What all laws say of one pack.
fn said(random: &mut Random) -> Result<Vec<Said>, Broken> {
    let pack = law_pack(random);
    let mut said = law_of_runs(&LIBRARY, random, &pack)?;
    said.push(law_of_sums(&LIBRARY, random, &pack)?);
    said.extend(laws_of_joins(&LIBRARY, random, &pack)?);
    Ok(said)
}

/// Tests all laws on one pack.
pub fn find(random: &mut Random) -> Finding {
    let said = said(random);
    Finding::of_laws(said.map(|said| said.into_iter().map(|said| said as usize).collect()))
}

/// Number and index by the library, with an output that is long enough.
fn index(language: &[u8], root: u32, tree: &[u8]) -> (u32, Vec<u8>) {
    let mut output = vec![0; 4 * tree.len()];
    let answer = library::index(language, root, tree, &mut output);
    output.truncate(answer.length as usize);
    (answer.number, output)
}

/// Number, start, length and kind of a block by the library.
fn block(language: &[u8], root: u32, [tree, index, path]: [&[u8]; 3]) -> (u32, u64, u64, u32) {
    let answer = library::block(language, root, tree, index, path);
    (answer.number, answer.start, answer.length, answer.kind)
}

/// Number, plan and index of an edit by the library, with outputs that are long enough.
fn edit(case: &EditCase) -> (u32, Vec<u8>, Vec<u8>) {
    let (plan, index) = case.room();
    let (mut plan, mut index) = (vec![0; plan], vec![0; index]);
    let answer = library_edit(case, &mut plan, &mut index);
    plan.truncate(answer.plan_length as usize);
    index.truncate(answer.index_length as usize);
    (answer.number, plan, index)
}

/// Tests the laws of edits on one plan.
pub fn find_edits(random: &mut Random) -> Finding {
    let operations = edits::Operations { index: &index, block: &block, edit: &edit };
    Finding::of_laws(law_of_edits(&operations, random))
}

/// Number, result and workspace of a search by the library.
fn search(case: &SearchCase, mut workspace: Vec<u8>, room: usize) -> (u32, Vec<u8>, Vec<u8>) {
    let mut output = vec![0; room];
    let SearchCase { translation, root, tree, limit, .. } = case;
    let answer = library::search(translation, *root, tree, *limit, &mut workspace, &mut output);
    output.truncate(answer.length as usize);
    (answer.number, output, workspace)
}

/// Number and result of a run by the library.
pub fn run_to(translation: &[u8], root: u32, tree: &[u8], room: usize) -> (u32, Vec<u8>) {
    let mut output = vec![0; room];
    let answer = library::run(translation, root, 0, tree, &mut output);
    output.truncate(answer.length as usize);
    (answer.number, output)
}

/// Tests the laws of searches on one session.
pub fn find_searches(random: &mut Random) -> Finding {
    let operations = search::Operations { search: &search, run: &run_to };
    Finding::of_laws(law_of_searches(&operations, random))
}

/// Number, length and output of a mask by the library.
fn mask(case: &MaskCase) -> (u32, u64, Vec<u8>) {
    let mut output = vec![0xAB; case.output];
    let MaskCase { language, root, card, tree, .. } = case;
    let answer = library::mask(language, *root, card, tree, &mut output);
    (answer.number, answer.length, output)
}

/// Tests the laws of masks on one plan.
pub fn find_masks(random: &mut Random) -> Finding {
    Finding::of_laws(law_of_masks(&mask, random))
}

/// Number and score of a fixed plan by the library.
fn score(case: &ScoreCase) -> (u32, i64) {
    let answer = library::score(&case.language, case.root, &case.tree, &case.table);
    (answer.number, answer.score)
}

/// Number, least and greatest score of a loose plan by the library.
fn score_loose(case: &ScoreCase) -> (u32, i64, i64) {
    let answer = library::score_loose(&case.language, case.root, &case.tree, &case.table);
    (answer.number, answer.least, answer.greatest)
}

/// Tests the laws of loose plans on one plan.
pub fn find_loose(random: &mut Random) -> Finding {
    let operations = loose::Operations { score: &score, score_loose: &score_loose };
    Finding::of_laws(law_of_loose(&operations, random))
}
