//! What holds of indexes and edits, for the operations of any implementation.

use super::Broken;
use crate::generate::{edit_case, EditCase, Random};
use crate::index::ENTRY_BYTES;

/// Number and index of a language, a root and a tree.
pub type Index = dyn Fn(&[u8], u32, &[u8]) -> (u32, Vec<u8>);

/// Number, start, length and kind of the block of a tree with an index at a path.
pub type Block = dyn Fn(&[u8], u32, [&[u8]; 3]) -> (u32, u64, u64, u32);

/// Number, plan and index of an edit, with outputs that are long enough.
pub type Edit = dyn Fn(&EditCase) -> (u32, Vec<u8>, Vec<u8>);

/// The operations that are spoken of.
pub struct Operations<'a> {
    pub index: &'a Index,
    pub block: &'a Block,
    pub edit: &'a Edit,
}

/// What was said of a case: the numbers of `SAID`.
const ACCEPTED: usize = 0;
const AT_ROOT: usize = 1;
const AT_TOKEN: usize = 2;
const LONGER: usize = 3;
const SHORTER: usize = 4;
const SAME: usize = 5;

/// What stands for each thing said.
pub const SAID: [&str; 6] = [
    "edits whose index is that of the plan, with the block in its place",
    "edits at the root",
    "edits at a token",
    "edits by a longer block",
    "edits by a shorter block",
    "edits by the block that stands there, which change nothing",
];

/// The index handed back is the one built from the new plan.
fn index_is_own(
    operations: &Operations,
    case: &EditCase,
    plan: &[u8],
    index: &[u8],
) -> Result<(), String> {
    let (number, own) = (operations.index)(&case.language, case.root, plan);
    match number == 0 && own == index {
        true => Ok(()),
        false => Err(format!("the plan's own index: number {number}, equal: {}", own == index)),
    }
}

/// The block that is replaced: where it starts and how long it is.
fn old_block(operations: &Operations, case: &EditCase) -> Result<(usize, usize, u32), String> {
    let old = [&case.tree[..], &case.index, &case.path];
    let (number, start, length, kind) = (operations.block)(&case.language, case.root, old);
    match number {
        0 => Ok((start as usize, length as usize, kind)),
        number => Err(format!("the block that is replaced: number {number}")),
    }
}

/// The plan has the new block in the place of the old, and the path finds it there.
fn block_is_new(
    operations: &Operations,
    case: &EditCase,
    plan: &[u8],
    index: &[u8],
) -> Result<(), String> {
    let (start, length, kind) = old_block(operations, case)?;
    let (before, behind) = (&case.tree[..start], &case.tree[start + length..]);
    if plan != [before, &case.block, behind].concat() {
        return Err("the plan is not the old one with the block in its place".to_string());
    }
    let found = (operations.block)(&case.language, case.root, [plan, index, &case.path]);
    let expected = (0, start as u64, case.block.len() as u64, kind);
    match found == expected {
        true => Ok(()),
        false => Err(format!("the path finds {found:?} in the new plan, not {expected:?}")),
    }
}

/// An edit by the block that stands there changes nothing.
fn same_stays(operations: &Operations, case: &EditCase) -> Result<(), String> {
    let (start, length, _) = old_block(operations, case)?;
    let block = case.tree[start..start + length].to_vec();
    let found = (operations.edit)(&EditCase { block, ..case.clone() });
    match found == (0, case.tree.clone(), case.index.clone()) {
        true => Ok(()),
        false => Err(format!("an edit by the old block: number {}", found.0)),
    }
}

/// What an accepted edit was like.
fn said(operations: &Operations, case: &EditCase) -> Result<Vec<usize>, String> {
    let (_, length, kind) = old_block(operations, case)?;
    let nodes = (operations.index)(&case.language, kind, &case.block).1.len() / ENTRY_BYTES;
    let token = length == 2 && case.block.len() == 2 && nodes == 1;
    let all = [
        (ACCEPTED, true),
        (AT_ROOT, case.path.is_empty()),
        (AT_TOKEN, token),
        (LONGER, case.block.len() > length),
        (SHORTER, case.block.len() < length),
        (SAME, true),
    ];
    Ok(all.into_iter().filter(|(_, holds)| *holds).map(|(number, _)| number).collect())
}

/// Tries what holds on one edit; gives the numbers of what was said, none of a refused edit.
pub fn law_of_edits(operations: &Operations, random: &mut Random) -> Result<Vec<usize>, Broken> {
    let case = edit_case(random);
    let (number, plan, index) = (operations.edit)(&case);
    if number != 0 {
        return Ok(vec![]);
    }
    let tried = index_is_own(operations, &case, &plan, &index)
        .and_then(|()| block_is_new(operations, &case, &plan, &index))
        .and_then(|()| same_stays(operations, &case))
        .and_then(|()| said(operations, &case));
    tried.map_err(|what| {
        let EditCase { language, tree, path, card, block, .. } = case;
        let root = case.root.to_be_bytes().to_vec();
        let given = [("language", language), ("root", root), ("tree", tree)];
        let more = [("path", path), ("card", card), ("block", block), ("plan", plan)];
        let inputs = given.into_iter().chain(more);
        Broken { what, inputs: inputs.collect() }
    })
}
