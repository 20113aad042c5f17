//! Edits of a plan: the block at a path is replaced by another legal tree of its kind.

use crate::block::Place;
use crate::card::read_language_and_card;
use crate::grammar::Grammar;
use crate::index::{check_index, index_of, put_result};
use crate::language::{bit, Kinds};
use crate::outcome::{require, Outcome, Refusal};
use crate::tree::{read_levels, read_tree, root_kind, Nothing, TREE_LEVELS};

/// What an edit is given.
#[derive(Clone, Copy, Debug)]
pub struct EditInput<'a> {
    pub language: &'a [u8],
    pub root: u32,
    pub tree: &'a [u8],
    pub index: &'a [u8],
    pub path: &'a [u8],
    pub card: &'a [u8],
    pub block: &'a [u8],
}

/// What an edit answers: the outcome with the length of the plan, and the length of its index.
#[derive(Clone, Copy, Debug, PartialEq, Eq)]
pub struct Edit {
    pub outcome: Outcome,
    pub index_length: u64,
}

/// A plan with its index.
struct Indexed {
    plan: Vec<u8>,
    index: Vec<u8>,
}

/// Replaces the block at a path; plan and index each have their own output.
pub fn edit(input: &EditInput, plan: &mut [u8], plan_index: &mut [u8]) -> Edit {
    match write_edit(input, plan, plan_index) {
        Ok((length, index_length)) => Edit { outcome: Outcome::Accepted(length), index_length },
        Err(reason) => Edit { outcome: Outcome::Refused(reason), index_length: 0 },
    }
}

/// The edited plan, and then both outputs if both are long enough.
fn write_edit(
    input: &EditInput,
    plan: &mut [u8],
    plan_index: &mut [u8],
) -> Result<(u64, u64), Refusal> {
    let edited = edited(input)?;
    let fits = edited.plan.len() <= plan.len() && edited.index.len() <= plan_index.len();
    require(fits, Refusal::Output)?;
    Ok((put_result(&edited.plan, plan)?, put_result(&edited.index, plan_index)?))
}

/// Refuses a block of a kind that is not seen.
fn check_seen(seen: Kinds, place: Place) -> Result<Place, Refusal> {
    require(seen & bit(place.kind) != 0, Refusal::Hidden)?;
    Ok(place)
}

/// The node of a legal tree to which a path leads, if no block on the way is hidden: each block is
/// looked at before the next number.
fn find_seen_place(
    grammar: &Grammar,
    seen: Kinds,
    root: u8,
    tree: &[u8],
    path: &[u8],
) -> Result<Place, Refusal> {
    let root = check_seen(seen, Place::root(root, tree))?;
    path.iter().try_fold(root, |place, &number| {
        let next = place.argument(grammar, tree, number).ok_or(Refusal::Path)?;
        check_seen(seen, next)
    })
}

/// The tests of `edit` in order up to the outputs, and then the new plan with its index.
fn edited(input: &EditInput) -> Result<Indexed, Refusal> {
    let EditInput { tree, path, block, .. } = *input;
    let (language, seen) = read_language_and_card(input.language, input.card)?;
    let root = root_kind(&language, input.root)?;
    let grammar = Grammar::new(&language);
    read_tree(&grammar, root, tree, Nothing, ())?;
    check_index(&grammar, root, tree, input.index)?;
    let place = find_seen_place(&grammar, seen, root, tree, path)?;
    read_levels(&grammar, place.kind, block, TREE_LEVELS - path.len())?;
    let end = place.end(&grammar, tree);
    let plan = [&tree[..place.start], block, &tree[end..]].concat();
    let index = index_of(&grammar, root, &plan)?;
    Ok(Indexed { plan, index })
}
