//! The index of a tree, and edits of a tree that has one.

use crate::output::{accepted, accepted_length, in_output};
use crate::{
    raw, BlockPath, Card, Index, Kind, Language, NewBlock, Refusal, Tree, ENTRY_BYTES,
    INDEXED_BYTES,
};

/// Builds the index of a tree of the root kind, which is put at the start of the output: for each
/// node, tokens too, in reading order its start and its length, two bytes each. Gives its length.
///
/// Behind the index, and after a refusal, the output is as it was.
///
/// # Errors
///
/// Refusals: 1 to 4, 14 to 17, 22.
///
/// ```
/// use algebra::write::{production, token};
/// use algebra::{index, Kind, Language, Refusal, Tree, ENTRY_BYTES};
///
/// const BLOCK: Kind = Kind(1);
/// const ROW: u8 = 1;
/// let strap = Language(include_bytes!("../../examples/strap/strap.language"));
///
/// // Two nodes: the row, of 3 bytes, and from byte 1 on its minutes, of 2.
/// let row = production(ROW, [token(5)]);
/// let mut output = [0; 2 * ENTRY_BYTES];
/// assert_eq!(index(strap, BLOCK, Tree(&row), &mut output), Ok(8));
/// assert_eq!(output, [0, 0, 0, 3, 0, 1, 0, 2]);
/// let short = index(strap, BLOCK, Tree(&row), &mut output[1..]);
/// assert_eq!(short, Err(Refusal::OutputTooShort));
/// ```
pub fn index(
    language: Language,
    root: Kind,
    tree: Tree,
    output: &mut [u8],
) -> Result<usize, Refusal> {
    accepted_length(raw::index(language.0, root.0, tree.0, output))
}

/// Builds the index of a tree of the root kind, with an output that is allocated.
///
/// # Errors
///
/// Refusals: 1 to 4, 14 to 16, 22.
///
/// ```
/// use algebra::{index_to_vec, Kind, Language, Tree};
///
/// const BLOCK: Kind = Kind(1);
/// let club = Language(include_bytes!("../../examples/pyramid/club.language"));
/// let session = Tree(include_bytes!("../../examples/pyramid/session.tree"));
/// let stored = include_bytes!("../../examples/pyramid/session.index");
/// assert_eq!(index_to_vec(club, BLOCK, session), Ok(stored.to_vec()));
/// ```
pub fn index_to_vec(language: Language, root: Kind, tree: Tree) -> Result<Vec<u8>, Refusal> {
    // Each node has a byte of its own, and a longer tree is refused for its length.
    let room = ENTRY_BYTES * tree.0.len().min(INDEXED_BYTES);
    in_output(room, |output| index(language, root, tree, output))
}

/// What is told of an accepted edit.
#[derive(Clone, Copy, Debug, PartialEq, Eq, Hash)]
pub struct Edit {
    /// The length of the new plan.
    pub plan_length: usize,
    /// The length of its index.
    pub index_length: usize,
}

/// Replaces the block of a tree at a path by another legal tree of its kind, if the card shows that
/// block and each one on the way to it. The new plan and its index are each put at the start of
/// their output; gives both lengths.
///
/// The bytes before and behind the block stay, and the index is the one that [`index()`] builds of
/// the new plan. Behind plan and index, and after a refusal, the outputs are as they were. Where the
/// new block is no tree of its kind, [`locate`](crate::locate) of it as such a tree tells where.
///
/// # Errors
///
/// Refusals: 1 to 4, 14 to 17, 21, 22, 25.
///
/// ```
/// use algebra::write::{production, token};
/// use algebra::{
///     card, edit, index_to_vec, BlockPath, Card, Edit, Index, Kind, Language, NewBlock, Refusal,
///     Tree,
/// };
///
/// const BLOCK: Kind = Kind(1);
/// const ROW: u8 = 1;
/// let strap = Language(include_bytes!("../../examples/strap/strap.language"));
///
/// let row = production(ROW, [token(5)]);
/// let index = index_to_vec(strap, BLOCK, Tree(&row))?;
/// let (mut plan, mut plan_index) = ([0; 3], [0; 8]);
/// // The 5 minutes become 7.
/// let mut to_7 = |card: &[u8]| {
///     let (path, block) = (BlockPath(&[1]), token(7));
///     let (tree, index, card) = (Tree(&row), Index(&index), Card(card));
///     let block = NewBlock(&block);
///     edit(strap, BLOCK, tree, index, path, card, block, &mut plan, &mut plan_index)
/// };
/// // By a card that shows minutes, and not by one that hides them.
/// assert_eq!(to_7(&card([BLOCK, Kind(2)])?), Ok(Edit { plan_length: 3, index_length: 8 }));
/// assert_eq!(to_7(&card([BLOCK])?), Err(Refusal::Hidden));
/// assert_eq!(plan[..], production(ROW, [token(7)]));
/// # Ok::<(), algebra::Refusal>(())
/// ```
#[allow(clippy::too_many_arguments)]
pub fn edit(
    language: Language,
    root: Kind,
    tree: Tree,
    index: Index,
    path: BlockPath,
    card: Card,
    block: NewBlock,
    plan: &mut [u8],
    plan_index: &mut [u8],
) -> Result<Edit, Refusal> {
    let answer =
        raw::edit(language.0, root.0, tree.0, index.0, path.0, card.0, block.0, plan, plan_index);
    accepted(answer.number)?;
    let (plan_length, index_length) = (answer.plan_length as usize, answer.index_length as usize);
    Ok(Edit { plan_length, index_length })
}

/// A plan that was edited, and its index.
#[derive(Clone, Debug, PartialEq, Eq, Hash)]
pub struct Edited {
    /// The new plan.
    pub plan: Vec<u8>,
    /// The index of the new plan.
    pub index: Vec<u8>,
}

/// Replaces the block of a tree at a path by another legal tree of its kind, if the card shows that
/// block and each one on the way to it, with outputs that are allocated.
///
/// # Errors
///
/// Refusals: 1 to 4, 14 to 16, 21, 22, 25.
///
/// ```
/// use algebra::write::{production, token};
/// use algebra::{
///     edit_to_vec, index_to_vec, BlockPath, Card, Index, Kind, Language, NewBlock, Refusal, Tree,
/// };
///
/// const BLOCK: Kind = Kind(1);
/// const ROW: u8 = 1;
/// const SEQUENCE: u8 = 2;
/// let strap = Language(include_bytes!("../../examples/strap/strap.language"));
/// let row = |minutes| production(ROW, [token(minutes)]);
///
/// // A row of 5 minutes, then one of 7, which becomes a sequence of 2 and 3.
/// let session = production(SEQUENCE, [row(5), row(7)]);
/// let index = index_to_vec(strap, BLOCK, Tree(&session))?;
/// let in_two = production(SEQUENCE, [row(2), row(3)]);
/// let put = |tree: &[u8], index: &[u8]| {
///     let (tree, index) = (Tree(tree), Index(index));
///     edit_to_vec(strap, BLOCK, tree, index, BlockPath(&[2]), Card::ALL, NewBlock(&in_two))
/// };
/// let edited = put(&session, &index)?;
/// assert_eq!(edited.plan, production(SEQUENCE, [row(5), in_two.clone()]));
/// assert_eq!(edited.index, index_to_vec(strap, BLOCK, Tree(&edited.plan))?);
/// // The old index is not that of the new plan.
/// assert_eq!(put(&edited.plan, &index), Err(Refusal::NotIndexed));
/// # Ok::<(), Refusal>(())
/// ```
pub fn edit_to_vec(
    language: Language,
    root: Kind,
    tree: Tree,
    index: Index,
    path: BlockPath,
    card: Card,
    block: NewBlock,
) -> Result<Edited, Refusal> {
    let room = tree.0.len().saturating_add(block.0.len()).min(INDEXED_BYTES);
    let (mut plan, mut plan_index) = (vec![0; room], vec![0; ENTRY_BYTES * room]);
    let edit = edit(language, root, tree, index, path, card, block, &mut plan, &mut plan_index)?;
    plan.truncate(edit.plan_length);
    plan_index.truncate(edit.index_length);
    Ok(Edited { plan, index: plan_index })
}
