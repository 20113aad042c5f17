//! What holds of masks, for any implementation.

use super::Broken;
use crate::card::HIDDEN;
use crate::generate::{mask_pair, MaskCase, Random};

/// Number, length and the whole output of a mask.
pub type Mask = dyn Fn(&MaskCase) -> (u32, u64, Vec<u8>);

/// What was said of a pair of plans: the numbers of `SAID`.
const ALIKE: usize = 0;
const TOO_SHORT: usize = 1;
const DIFFERENT: usize = 2;
const OTHER_LENGTH: usize = 3;
const ROOT_HIDDEN: usize = 4;

/// What stands for each thing said.
pub const SAID: [&str; 5] = [
    "pairs of plans masked alike",
    "pairs of plans too long for the output alike",
    "pairs of plans that differ in hidden blocks",
    "pairs of plans of different lengths",
    "pairs of plans with a hidden root",
];

/// Two plans that agree outside hidden blocks give the same bytes, length and number; gives the
/// numbers of what was said.
pub fn law_of_masks(mask: &Mask, random: &mut Random) -> Result<Vec<usize>, Broken> {
    let Some([one, other]) = mask_pair(random) else { return Ok(vec![]) };
    let (left, right) = (mask(&one), mask(&other));
    if left != right || ![0, 17].contains(&left.0) {
        let (what, other) = (format!("{left:?} and {right:?}"), other.tree);
        let MaskCase { language, card, tree, .. } = one;
        let given = [("language", language), ("card", card), ("one", tree), ("other", other)];
        return Err(Broken { what, inputs: given.into_iter().collect() });
    }
    let all = [
        (ALIKE, left.0 == 0),
        (TOO_SHORT, left.0 == 17),
        (DIFFERENT, one.tree != other.tree),
        (OTHER_LENGTH, one.tree.len() != other.tree.len()),
        (ROOT_HIDDEN, left.1 == 1 && left.2[0] == HIDDEN),
    ];
    Ok(all.into_iter().filter(|(_, holds)| *holds).map(|(number, _)| number).collect())
}
