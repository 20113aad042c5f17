//! Scores of loose plans, whose tokens are not yet settled.

use crate::output::accepted;
use crate::{raw, Kind, Language, LoadTable, LoosePlan, Refusal};

/// The scores that a loose plan can come to: the least and the greatest.
#[derive(Clone, Copy, Debug, PartialEq, Eq, Hash)]
pub struct LooseScore {
    /// The least score; some choice of tokens reaches it, and none scores less.
    pub least: i64,
    /// The greatest score; some choice of tokens reaches it, and none scores more.
    pub greatest: i64,
}

/// Scores a loose plan of the root kind by a load table of the language.
///
/// A loose plan is a tree with two legal values in the place of each token, the least and the
/// greatest, of two bytes each; the least is not above the other. They are equal where a token is
/// settled.
///
/// # Errors
///
/// Refusals: 1 to 4, 14 to 16, 18, 19.
///
/// ```
/// use algebra::write::{loose_token, production};
/// use algebra::{score_loose, Kind, Language, LoadTable, LoosePlan, LooseScore, Refusal};
///
/// const BLOCK: Kind = Kind(1);
/// const ROW: u8 = 1;
/// const REST: u8 = 3;
/// let strap = Language(include_bytes!("../../examples/strap/strap.language"));
/// // A row scores 2 for a minute, and a rest -1.
/// let table = LoadTable(include_bytes!("../../examples/pyramid/load.table"));
/// let scores = |plan: &[u8]| score_loose(strap, BLOCK, LoosePlan(plan), table);
///
/// let row = production(ROW, [loose_token(20, 30)]);
/// assert_eq!(scores(&row), Ok(LooseScore { least: 40, greatest: 60 }));
/// let rest = production(REST, [loose_token(20, 30)]);
/// assert_eq!(scores(&rest), Ok(LooseScore { least: -30, greatest: -20 }));
/// let turned = production(ROW, [loose_token(30, 20)]);
/// assert_eq!(scores(&turned), Err(Refusal::IllegalTree));
/// ```
pub fn score_loose(
    language: Language,
    root: Kind,
    plan: LoosePlan,
    table: LoadTable,
) -> Result<LooseScore, Refusal> {
    let raw::LooseScoreAnswer { number, least, greatest } =
        raw::score_loose(language.0, root.0, plan.0, table.0);
    accepted(number).map(|()| LooseScore { least, greatest })
}
