//! Runs of translations on trees.

use crate::output::{accepted_length, in_growing_output};
use crate::{raw, Kind, MappingNumber, Refusal, Translation, Tree};

/// What is told of an accepted run.
#[derive(Clone, Copy, Debug, PartialEq, Eq, Hash)]
pub struct Run {
    /// The length of the result.
    pub length: usize,
    /// The number of clauses applied, each use of an argument anew and unused arguments not at all;
    /// [`u32::MAX`] if there are more.
    pub cost: u32,
}

/// Runs a translation on a tree of the root kind, by a number of that kind. The result is put at the
/// start of the output; gives its length, and the cost of the run.
///
/// Behind the result, and after a refusal, the output is as it was. A number that the root kind
/// lacks is refused as a root that the language lacks is.
///
/// # Errors
///
/// Refusals: 1 to 7, 14 to 17.
///
/// ```
/// use algebra::write::{production, token};
/// use algebra::{run, Kind, MappingNumber, Refusal, Run, Translation, Tree};
///
/// const BLOCK: Kind = Kind(1);
/// const ROW: u8 = 1;
/// const SEQUENCE: u8 = 2;
/// const TWICE: u8 = 4;
/// let club = Translation(include_bytes!("../../examples/strap/plan.translation"));
///
/// let row = production(ROW, [token(5)]);
/// let twice = production(TWICE, [row.clone()]);
/// let mut output = [0; 7];
/// let answer = run(club, BLOCK, MappingNumber(0), Tree(&twice), &mut output);
/// // Three clauses were applied: that of twice once, and that of row twice.
/// assert_eq!(answer, Ok(Run { length: 7, cost: 3 }));
/// assert_eq!(output[..], production(SEQUENCE, [row.clone(), row]));
///
/// let short = run(club, BLOCK, MappingNumber(0), Tree(&twice), &mut output[..6]);
/// assert_eq!(short, Err(Refusal::OutputTooShort));
/// // The blocks of this club have no mapping of number 1.
/// let unknown = run(club, BLOCK, MappingNumber(1), Tree(&twice), &mut output);
/// assert_eq!(unknown, Err(Refusal::UnknownRoot));
/// ```
pub fn run(
    translation: Translation,
    root: Kind,
    number: MappingNumber,
    tree: Tree,
    output: &mut [u8],
) -> Result<Run, Refusal> {
    let raw::RunAnswer { number, length, cost } =
        raw::run(translation.0, root.0, number.0, tree.0, output);
    accepted_length(raw::Answer { number, length }).map(|length| Run { length, cost })
}

/// The result of a run, and its cost.
#[derive(Clone, Debug, PartialEq, Eq, Hash)]
pub struct Ran {
    /// The result, a tree of the target.
    pub tree: Vec<u8>,
    /// The number of clauses applied, as in [`Run`].
    pub cost: u32,
}

/// Runs a translation on a tree of the root kind, by a number of that kind, with an output that is
/// allocated and has at most `limit` bytes. A small tree can have a result that fits no memory.
///
/// A result that does not fit the first output, of about the length of the tree, costs a pass
/// over the tree for each time that the output is made longer. Where memory has no room for a
/// longer output, the answer is 17 too.
///
/// # Errors
///
/// Refusals: 1 to 7, 14 to 17.
///
/// A list of pieces becomes a warm-up by number 0, and in reverse a cool-down by number 1:
///
/// ```
/// use algebra::{run_to_vec, Kind, MappingNumber, Translation, Tree};
///
/// const LIST: Kind = Kind(3);
/// let club = Translation(include_bytes!("../../examples/warm_up/plan.translation"));
/// let pieces = Tree(include_bytes!("../../examples/warm_up/warm_up.tree"));
///
/// let warm_up = run_to_vec(club, LIST, MappingNumber(0), pieces, 1000)?;
/// let cool_down = run_to_vec(club, LIST, MappingNumber(1), pieces, 1000)?;
/// assert_ne!(warm_up.tree, cool_down.tree);
/// assert_eq!(warm_up.cost, cool_down.cost);
/// # Ok::<(), algebra::Refusal>(())
/// ```
pub fn run_to_vec(
    translation: Translation,
    root: Kind,
    number: MappingNumber,
    tree: Tree,
    limit: usize,
) -> Result<Ran, Refusal> {
    let call = |output: &mut [u8]| {
        run(translation, root, number, tree, output).map(|run| (run.length, run.cost))
    };
    in_growing_output(tree.0.len(), limit, call).map(|(tree, cost)| Ran { tree, cost })
}
