//! The search for a source tree whose run gives a target tree.

use crate::output::{accepted_length, in_growing_output, output_of};
use crate::{raw, Kind, Levels, Refusal, Translation, Tree, SEARCH_WORKSPACE};

/// Finds the source tree of the root kind, of at most so many levels, whose run gives a tree of the
/// target: the first in byte order. It is put at the start of the output; gives its length.
///
/// Where a clause drops an argument, its place takes the first legal tree within the levels that are
/// left. Behind the tree, and after a refusal, the output is as it was. The call allocates a
/// workspace of [`SEARCH_WORKSPACE`] bytes for each byte of the tree, in which the search remembers
/// what it has found; where memory has no room for it, it takes longer and answers the same.
///
/// # Errors
///
/// Refusals: 1 to 7, 14 to 17, 23, 24, 26.
///
/// ```
/// use algebra::write::{production, token};
/// use algebra::{search, Kind, Levels, Refusal, Translation, Tree};
///
/// const BLOCK: Kind = Kind(1);
/// const ROW: u8 = 1;
/// const SEQUENCE: u8 = 2;
/// let club = Translation(include_bytes!("../../examples/strap/plan.translation"));
/// let row = |minutes| production(ROW, [token(minutes)]);
///
/// // A sequence of two rows is one in the words of the club too, and that comes first.
/// let session = production(SEQUENCE, [row(5), row(5)]);
/// let mut output = [0; 100];
/// let length = search(club, BLOCK, Tree(&session), Levels(2), &mut output)?;
/// assert_eq!(output[..length], session);
/// // It has two levels, and not one; and limits are 1 to 16.
/// let mut within = |levels| search(club, BLOCK, Tree(&session), Levels(levels), &mut output);
/// assert_eq!(within(1), Err(Refusal::NoSource));
/// assert_eq!(within(17), Err(Refusal::LimitOutOfRange));
/// # Ok::<(), Refusal>(())
/// ```
pub fn search(
    translation: Translation,
    root: Kind,
    tree: Tree,
    limit: Levels,
    output: &mut [u8],
) -> Result<usize, Refusal> {
    let room = tree.0.len().saturating_mul(SEARCH_WORKSPACE);
    let mut workspace = output_of(room).unwrap_or_default();
    accepted_length(raw::search(translation.0, root.0, tree.0, limit.0, &mut workspace, output))
}

/// Finds the source tree of the root kind, of at most so many levels, whose run gives a tree of the
/// target, with an output that is allocated and has at most `room` bytes.
///
/// Trees in the place of dropped arguments can be long: a result that does not fit the first output,
/// of about the length of the tree, costs a search for each time that the output is made longer.
/// Where memory has no room for a longer output, the answer is 17 too.
///
/// # Errors
///
/// Refusals: 1 to 7, 14 to 17, 23, 24, 26.
///
/// The plan of a club whose run is a session of the logbook:
///
/// ```
/// use algebra::{run_to_vec, search_to_vec, Kind, Levels, MappingNumber, Translation, Tree};
///
/// const BLOCK: Kind = Kind(1);
/// let club = Translation(include_bytes!("../../examples/pyramid/plan.translation"));
/// let evening = Tree(include_bytes!("../../examples/logbook/evening.session"));
///
/// let plan = search_to_vec(club, BLOCK, evening, Levels(4), 1000)?;
/// assert!(plan.len() < evening.0.len());
/// let ran = run_to_vec(club, BLOCK, MappingNumber(0), Tree(&plan), 1000)?;
/// assert_eq!(ran.tree, evening.0);
/// # Ok::<(), algebra::Refusal>(())
/// ```
pub fn search_to_vec(
    translation: Translation,
    root: Kind,
    tree: Tree,
    limit: Levels,
    room: usize,
) -> Result<Vec<u8>, Refusal> {
    let call = |output: &mut [u8]| {
        search(translation, root, tree, limit, output).map(|length| (length, ()))
    };
    in_growing_output(tree.0.len(), room, call).map(|(found, ())| found)
}
