//! What holds of the scores of loose plans, for the operations of any implementation.

use super::Broken;
use crate::generate::{doubled, loose_case, score_case, settled};
use crate::generate::{Random, ScoreCase, Settling};

/// Number and score of a fixed plan.
pub type Score = dyn Fn(&ScoreCase) -> (u32, i64);

/// Number, least and greatest score of a loose plan.
pub type ScoreLoose = dyn Fn(&ScoreCase) -> (u32, i64, i64);

/// The operations that are spoken of.
pub struct Operations<'a> {
    pub score: &'a Score,
    pub score_loose: &'a ScoreLoose,
}

/// What was said of a case: the numbers of `SAID`.
const CHOICES: usize = 0;
const DIFFERENT_ENDS: usize = 1;
const FIXED: usize = 2;
const FIXED_REFUSED: usize = 3;

/// What stands for each thing said.
pub const SAID: [&str; 4] = [
    "loose plans scored, choices within the ends, which are reached",
    "loose plans whose ends differ",
    "fixed plans as loose ones, with equal ends",
    "fixed plans refused as loose ones are",
];

/// So many choices are made for each loose plan.
const TRIES: usize = 3;

/// A broken law with the inputs of a case.
fn broken(what: String, case: &ScoreCase, tree: &[u8]) -> Broken {
    let inputs = vec![
        ("language", case.language.clone()),
        ("root", case.root.to_be_bytes().to_vec()),
        ("table", case.table.clone()),
        ("loose plan", case.tree.clone()),
        ("fixed plan", tree.to_vec()),
    ];
    Broken { what, inputs }
}

/// Every choice of tokens scores between the ends, and some choice reaches each.
fn choices(
    operations: &Operations,
    random: &mut Random,
    case: &ScoreCase,
) -> Result<Vec<usize>, Broken> {
    let (number, least, greatest) = (operations.score_loose)(case);
    if number != 0 {
        return Ok(vec![]);
    }
    let ends = [(Settling::Least, least..=least), (Settling::Greatest, greatest..=greatest)];
    let any = (0..TRIES).map(|_| (Settling::Any, least..=greatest));
    for (settling, wanted) in ends.into_iter().chain(any) {
        let fixed = settled(random, case, settling);
        let (number, score) = (operations.score)(&fixed);
        if number != 0 || !wanted.contains(&score) {
            let what = format!("{settling:?}: number {number} score {score}, wanted {wanted:?}");
            return Err(broken(what, case, &fixed.tree));
        }
    }
    let differ = (least < greatest).then_some(DIFFERENT_ENDS);
    Ok([CHOICES].into_iter().chain(differ).collect())
}

/// A fixed plan scores as the loose one does in which each value stands twice.
fn fixed(operations: &Operations, random: &mut Random) -> Result<usize, Broken> {
    let case = score_case(random);
    let loose = ScoreCase { tree: doubled(&case), ..case.clone() };
    let (number, score) = (operations.score)(&case);
    let found = (operations.score_loose)(&loose);
    if found == (number, score, score) {
        return Ok(if number == 0 { FIXED } else { FIXED_REFUSED });
    }
    let what = format!("fixed: number {number} score {score}; loose: {found:?}");
    Err(broken(what, &loose, &case.tree))
}

/// Tries what holds on one loose plan and one fixed plan; gives the numbers of what was said.
pub fn law_of_loose(operations: &Operations, random: &mut Random) -> Result<Vec<usize>, Broken> {
    let case = loose_case(random);
    let mut said = choices(operations, random, &case)?;
    said.push(fixed(operations, random)?);
    Ok(said)
}
