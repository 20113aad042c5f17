//! What is promised of every call, whatever is handed in: which numbers there are, what a refusal
//! leaves, and what else is unchanged.

use crate::call::{Answer, Buffers, Call};
use crate::language::{ARGUMENTS, KINDS};
use crate::node::NO_NAME;
use crate::score::{LEAST_SCORE, MOST_SCORE};
use std::ops::RangeInclusive;

/// Reductions that leave the workspace as it was.
pub const EARLY_REFUSALS: [u32; 6] = [1, 2, 3, 4, 8, 9];

/// Searches that leave the workspace all zero.
pub const SEARCHED: [u32; 3] = [0, 17, 23];

/// The scores that are in range.
const SCORES: RangeInclusive<i64> = LEAST_SCORE..=MOST_SCORE;

/// The numbers that each operation answers with.
pub const ANSWERS: [(&str, &[u32]); 17] = [
    ("check_language", &[0, 1, 2, 3, 4]),
    ("check_translation", &[0, 1, 2, 3, 4, 5, 6, 7]),
    ("check_tree", &[0, 1, 2, 3, 4, 14, 15, 16]),
    ("reduce", &[0, 1, 2, 3, 4, 5, 6, 7, 8, 9, 10, 11, 12, 13, 26]),
    ("run", &[0, 1, 2, 3, 4, 5, 6, 7, 14, 15, 16, 17]),
    ("score", &[0, 1, 2, 3, 4, 14, 15, 16, 18, 19]),
    ("score_loose", &[0, 1, 2, 3, 4, 14, 15, 16, 18, 19]),
    ("join_table", &[0, 1, 2, 3, 4, 5, 6, 7, 11, 17, 18, 26]),
    ("export", &[0, 1, 2, 3, 4, 14, 15, 16, 17]),
    ("import", &[0, 1, 2, 3, 4, 14, 16, 17, 20]),
    ("index", &[0, 1, 2, 3, 4, 14, 15, 16, 17, 22]),
    ("block", &[0, 1, 2, 3, 4, 14, 15, 16, 21, 22]),
    ("node", &[0, 1, 2, 3, 4, 14, 15, 16, 21, 22]),
    ("locate", &[0, 1, 2, 3, 4, 14, 15, 16]),
    ("edit", &[0, 1, 2, 3, 4, 14, 15, 16, 17, 21, 22, 25]),
    ("mask", &[0, 1, 2, 3, 4, 14, 15, 16, 17]),
    ("search", &[0, 1, 2, 3, 4, 5, 6, 7, 14, 15, 16, 17, 23, 24, 26]),
];

/// The numbers that an operation answers with.
pub fn answers(operation: &str) -> &'static [u32] {
    let found = ANSWERS.iter().find(|(name, _)| *name == operation);
    found.map_or(&[], |(_, numbers)| numbers)
}

/// What a call breaks of what is promised, if anything, by its answer and the buffers before and
/// after it.
pub fn broken(
    call: &Call,
    answer: &Answer,
    before: &Buffers,
    after: &Buffers,
) -> Option<&'static str> {
    let [length, index_length] = results(call, answer);
    let rest_kept = rest_is_kept(&before.output, &after.output, length)
        && rest_is_kept(&before.index, &after.index, index_length);
    let told = [
        (
            answers(call.operation()).contains(&answer.number),
            "the number is not one of its answers",
        ),
        (answer.number == 0 || has_no_figures(call, answer), "a refusal has a figure"),
        (answer.number != 0 || figures_fit(call, answer), "a figure does not fit the input"),
        (rest_kept, "an output has other bytes than a result at its start"),
        (workspace_is_left(call, answer, before, after), "the workspace is not as it must be"),
    ];
    told.into_iter().find(|(holds, _)| !holds).map(|(_, what)| what)
}

/// The lengths of what stands in both outputs: nothing after a refusal, nor after a lookup, whose
/// length is that of a part of the tree.
fn results(call: &Call, answer: &Answer) -> [u64; 2] {
    match call {
        Call::Block(_) => [0, 0],
        _ if answer.number != 0 => [0, 0],
        _ => [answer.length, answer.index_length],
    }
}

/// Whether an output is as it was but for a result of this length.
fn rest_is_kept(before: &[u8], after: &[u8], length: u64) -> bool {
    let fits = before.len() == after.len() && length <= before.len() as u64;
    fits && before[length as usize..] == after[length as usize..]
}

/// Whether the figures of a refusal are all 0; only the position at which a tree is at fault is told,
/// which does not lie behind its end.
fn has_no_figures(call: &Call, answer: &Answer) -> bool {
    let position = match call {
        Call::Locate(case) if [15, 16].contains(&answer.number) => {
            answer.position.min(case.tree.len() as u64)
        }
        _ => 0,
    };
    *answer == Answer { number: answer.number, position, ..Answer::default() }
}

/// Whether the figures of what was accepted can be those of its input.
fn figures_fit(call: &Call, answer: &Answer) -> bool {
    let Answer { start, length, kind, name, arguments, .. } = *answer;
    let is_kind = (kind as usize) < KINDS;
    match call {
        Call::Block(case) => {
            let end = start.checked_add(length);
            is_kind && end.is_some_and(|end| end <= case.tree.len() as u64) && length > 0
        }
        Call::Node(_) if name == NO_NAME => is_kind && arguments == 0,
        Call::Node(_) => is_kind && name < NO_NAME && (arguments as usize) <= ARGUMENTS,
        Call::Score(_) => SCORES.contains(&answer.score),
        Call::ScoreLoose(_) => {
            let [least, greatest] = answer.ends;
            SCORES.contains(&least) && SCORES.contains(&greatest) && least <= greatest
        }
        Call::CheckLanguage(_) | Call::CheckTranslation(_) | Call::CheckTree(_) => length == 0,
        Call::Locate(_) => answer.position == 0 && length == 0,
        _ => true,
    }
}

/// Whether the workspace is all zero, or as it was, as the number says.
fn workspace_is_left(call: &Call, answer: &Answer, before: &Buffers, after: &Buffers) -> bool {
    let kept = match call {
        Call::Reduce(_) => EARLY_REFUSALS.contains(&answer.number),
        Call::Search(_) => !SEARCHED.contains(&answer.number),
        _ => true,
    };
    let zeroed = || after.workspace.iter().all(|&byte| byte == 0);
    before.workspace.len() == after.workspace.len()
        && if kept { before.workspace == after.workspace } else { zeroed() }
}
