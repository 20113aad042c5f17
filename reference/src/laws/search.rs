//! What holds of searches, for the operations of any implementation.

use super::Broken;
use crate::enumeration::{first_source, source_trees, Listed};
use crate::generate::{small_search_case, Random, SearchCase};
use crate::grammar::Grammar;
use crate::translation::read_translation;
use crate::tree::read_levels;

/// Number, what was found, and workspace at the end of a search with this workspace and an output
/// of so many bytes.
pub type Search = dyn Fn(&SearchCase, Vec<u8>, usize) -> (u32, Vec<u8>, Vec<u8>);

/// Number and result of the run of a translation from a root on a tree, with an output of so many
/// bytes.
pub type Run = dyn Fn(&[u8], u32, &[u8], usize) -> (u32, Vec<u8>);

/// The operations that are spoken of.
pub struct Operations<'a> {
    pub search: &'a Search,
    pub run: &'a Run,
}

/// What was said of a case: the numbers of `SAID`.
const FOUND: usize = 0;
const FIRST: usize = 1;
const NONE: usize = 2;
const TOO_LONG: usize = 3;
const REFUSED: usize = 4;
const ONE_OF_MANY: usize = 5;

/// What stands for each thing said.
pub const SAID: [&str; 6] = [
    "trees found, within the limit, that run to the target",
    "trees found that are the first of all by enumeration",
    "searches without a tree, by enumeration too",
    "trees too long for the output",
    "searches refused, with the workspace as it was",
    "trees found that are not the only ones",
];

/// The longest tree that is awaited, and the most trees of an enumeration.
const ROOM: usize = 5000;
const MOST: usize = 1500;

/// Answers with other workspaces are the same, and the workspace is left as it should be.
fn same_by_workspace(
    operations: &Operations,
    random: &mut Random,
    case: &SearchCase,
    (number, found): (u32, &[u8]),
) -> Result<(), String> {
    let enough = case.enough_workspace();
    let short = [0, random.below(50), random.below(enough + 1)];
    let short = if case.needs_no_workspace() { &short[..] } else { &[] };
    for &length in short.iter().chain(&[enough, enough + 7]) {
        let lent: Vec<u8> = (0..length).map(|_| random.byte()).collect();
        let (other, bytes, left) = (operations.search)(case, lent.clone(), ROOM);
        let zero = vec![0; length];
        let wanted = if [0, 17, 23].contains(&other) { zero } else { lent };
        if (other, &bytes[..]) != (number, found) || left != wanted {
            let kept = left == wanted;
            return Err(format!("workspace of {length}: {number} and {other}, left well: {kept}"));
        }
    }
    Ok(())
}

/// What is found is within the limit and runs to the target.
fn runs_to_target(operations: &Operations, case: &SearchCase, found: &[u8]) -> Result<(), String> {
    let translation = read_translation(&case.translation).map_err(|_| "no translation")?;
    let (kind, limit) = (case.root as u8, case.limit as usize);
    let within = read_levels(&Grammar::new(&translation.source), kind, found, limit);
    within.map_err(|reason| format!("what is found is no tree within the limit: {reason:?}"))?;
    let run = (operations.run)(&case.translation, case.root, found, case.tree.len());
    match run == (0, case.tree.clone()) {
        true => Ok(()),
        false => Err(format!("what is found does not run to the target: number {}", run.0)),
    }
}

/// What is found is what an enumeration of all trees finds first, where that is feasible.
fn is_first(case: &SearchCase, number: u32, found: &[u8]) -> Result<Option<usize>, String> {
    let SearchCase { translation, root, tree, limit, .. } = case;
    match first_source(translation, *root, tree, *limit, MOST) {
        Some(Some(first)) if number == 0 && first == found => Ok(Some(FIRST)),
        Some(None) if number == 23 => Ok(Some(NONE)),
        Some(Some(first)) if number == 17 && first.len() > ROOM => Ok(None),
        None => Ok(None),
        Some(first) => Err(format!("by enumeration {first:?}, but number {number}")),
    }
}

/// Whether there is another tree that runs to the target, where that is seen by enumeration.
fn is_one_of_many(case: &SearchCase) -> bool {
    let SearchCase { translation, root, tree, limit, .. } = case;
    let trees = source_trees(translation, *root, *limit, tree.len(), MOST);
    let alike = |trees: Vec<Listed>| {
        trees.into_iter().filter(|listed| listed.run.as_ref() == Some(tree)).count()
    };
    trees.map_or(0, alike) > 1
}

/// What holds of an answer; gives the numbers of what was said.
fn said(
    operations: &Operations,
    random: &mut Random,
    case: &SearchCase,
) -> Result<Vec<usize>, String> {
    let (number, found, _) = (operations.search)(case, vec![0; case.enough_workspace()], ROOM);
    same_by_workspace(operations, random, case, (number, &found))?;
    match number {
        0 => runs_to_target(operations, case, &found)?,
        17 | 23 => {}
        _ => return Ok(vec![REFUSED]),
    }
    let first = is_first(case, number, &found)?;
    let found = [(number == 0).then_some(FOUND), (number == 17).then_some(TOO_LONG)];
    let many = (first == Some(FIRST) && is_one_of_many(case)).then_some(ONE_OF_MANY);
    Ok(found.into_iter().chain([first, many]).flatten().collect())
}

/// Tries what holds on one search; gives the numbers of what was said.
pub fn law_of_searches(operations: &Operations, random: &mut Random) -> Result<Vec<usize>, Broken> {
    let case = small_search_case(random);
    said(operations, random, &case).map_err(|what| {
        let SearchCase { translation, root, tree, limit, .. } = case;
        let numbers = [root, limit].map(|number| number.to_be_bytes().to_vec());
        let [root, limit] = numbers;
        let inputs =
            [("translation", translation), ("root", root), ("tree", tree), ("limit", limit)];
        Broken { what, inputs: inputs.into_iter().collect() }
    })
}
