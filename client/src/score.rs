//! Load scores of trees, and load tables joined onto translations.

use crate::output::{accepted, accepted_length, in_output};
use crate::{raw, Kind, Language, LoadTable, Refusal, Translation, Tree, TABLE_BYTES};

/// Scores a tree of the root kind by a load table of the language.
///
/// A token scores its value, a production its constant plus each factor times that argument's
/// score. Negative scores are ordinary.
///
/// # Errors
///
/// Refusals: 1 to 4, 14 to 16, 18, 19.
///
/// ```
/// use algebra::write::{production, token};
/// use algebra::{score, Kind, Language, LoadTable, Refusal, Tree};
///
/// const BLOCK: Kind = Kind(1);
/// const ROW: u8 = 1;
/// const REST: u8 = 3;
/// let strap = Language(include_bytes!("../../examples/strap/strap.language"));
/// // A row scores 2 for a minute, and a rest -1.
/// let table = LoadTable(include_bytes!("../../examples/pyramid/load.table"));
///
/// let (row, rest) = (production(ROW, [token(5)]), production(REST, [token(5)]));
/// assert_eq!(score(strap, BLOCK, Tree(&row), table), Ok(10));
/// assert_eq!(score(strap, BLOCK, Tree(&rest), table), Ok(-5));
/// let empty = LoadTable(&[]);
/// assert_eq!(score(strap, BLOCK, Tree(&rest), empty), Err(Refusal::BrokenTable));
/// ```
pub fn score(language: Language, root: Kind, tree: Tree, table: LoadTable) -> Result<i64, Refusal> {
    let answer = raw::score(language.0, root.0, tree.0, table.0);
    accepted(answer.number).map(|()| answer.score)
}

/// Joins a load table of the target onto a translation, which gives a load table of the source. It
/// is put at the start of the output; gives its length.
///
/// Where a tree's score by the joined table and its run's score by the table are both accepted,
/// they are equal. Behind the table, and after a refusal, the output is as it was.
///
/// A translation with any number but 0 is refused with 26.
///
/// # Errors
///
/// Refusals: 1 to 7, 11, 17, 18, 26.
///
/// ```
/// use algebra::{join_table, LoadTable, Refusal, Translation, TABLE_BYTES};
///
/// let club = Translation(include_bytes!("../../examples/strap/plan.translation"));
/// let table = LoadTable(include_bytes!("../../examples/pyramid/load.table"));
///
/// let mut output = [0; TABLE_BYTES];
/// // The table of the strap has 29 bytes, and twice has a line of 9.
/// assert_eq!(join_table(club, table, &mut output), Ok(38));
/// assert_eq!(join_table(club, table, &mut []), Err(Refusal::OutputTooShort));
/// ```
pub fn join_table(
    translation: Translation,
    table: LoadTable,
    output: &mut [u8],
) -> Result<usize, Refusal> {
    accepted_length(raw::join_table(translation.0, table.0, output))
}

/// Joins a load table of the target onto a translation, with an output that is allocated.
///
/// # Errors
///
/// Refusals: 1 to 7, 11, 18, 26.
///
/// A plan in the club's words scores as the session does that it becomes:
///
/// ```
/// use algebra::write::{production, token};
/// use algebra::{join_table_to_vec, score, Kind, Language, LoadTable, Translation, Tree};
///
/// const BLOCK: Kind = Kind(1);
/// const PYRAMID: u8 = 5;
/// let language = Language(include_bytes!("../../examples/pyramid/club.language"));
/// let club = Translation(include_bytes!("../../examples/pyramid/plan.translation"));
/// let table = LoadTable(include_bytes!("../../examples/pyramid/load.table"));
///
/// // 1, 2, 3, 2 and 1 minutes, with a minute of rest between.
/// let pyramid = production(PYRAMID, [1, 2, 3, 1].map(token));
/// let joined = join_table_to_vec(club, table)?;
/// assert_eq!(score(language, BLOCK, Tree(&pyramid), LoadTable(&joined)), Ok(14));
/// # Ok::<(), algebra::Refusal>(())
/// ```
pub fn join_table_to_vec(translation: Translation, table: LoadTable) -> Result<Vec<u8>, Refusal> {
    in_output(TABLE_BYTES, |output| join_table(translation, table, output))
}
