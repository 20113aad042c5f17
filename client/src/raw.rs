//! The C interface as it is, without what is unsafe: numbers instead of
//! [`Refusal`](crate::Refusal), lengths and other figures as they were stored, and the workspace of
//! the caller.
//!
//! The functions beside this module serve most callers better. This one shows what they do not:
//! which bytes of output and workspace a call leaves alone, and the figures after a refusal.
#![allow(unsafe_code)]

mod block;
mod edit;
mod locate;
mod loose;
mod mask;
mod node;
mod score;
mod search;
mod xml;

pub use block::{block, BlockAnswer};
pub use edit::{edit, index, EditAnswer};
pub use locate::{locate, LocateAnswer};
pub use loose::{score_loose, LooseScoreAnswer};
pub use mask::mask;
pub use node::{node, NodeAnswer, NO_NAME};
pub use score::{join_table, score, ScoreAnswer};
pub use search::search;
pub use xml::{export, import};

extern "C" {
    fn algebra_check_language(language: *const u8, language_length: usize) -> u32;
    fn algebra_check_translation(translation: *const u8, translation_length: usize) -> u32;
    fn algebra_check_tree(
        language: *const u8,
        language_length: usize,
        root: u32,
        tree: *const u8,
        tree_length: usize,
    ) -> u32;
    fn algebra_reduce(
        pack: *const u8,
        pack_length: usize,
        workspace: *mut u8,
        workspace_length: usize,
        output: *mut u8,
        output_length: usize,
        length: *mut u64,
    ) -> u32;
    fn algebra_run(
        translation: *const u8,
        translation_length: usize,
        root: u32,
        number: u32,
        tree: *const u8,
        tree_length: usize,
        output: *mut u8,
        output_length: usize,
        length: *mut u64,
        cost: *mut u32,
    ) -> u32;
}

/// A number, 0 for accepted, and a length, as the library gives them.
#[derive(Clone, Copy, Debug, PartialEq, Eq)]
pub struct Answer {
    /// 0, or the number of the refusal.
    pub number: u32,
    /// The length of the result, 0 for a refusal.
    pub length: u64,
}

/// The answer of a run: a number, a length and the cost, how many clauses were applied.
#[derive(Clone, Copy, Debug, PartialEq, Eq)]
pub struct RunAnswer {
    /// 0, or the number of the refusal.
    pub number: u32,
    /// The length of the result, 0 for a refusal.
    pub length: u64,
    /// The number of clauses applied, or the greatest number where there are more; 0 for a refusal.
    pub cost: u32,
}

/// What the length is before a call, so that one that is not stored shows.
const NOT_STORED: u64 = u64::MAX;
/// What the cost is before a call: no cost that is easily met.
const COST_NOT_STORED: u32 = u32::MAX - 1;

/// Checks a language and gives the number.
pub fn check_language(language: &[u8]) -> u32 {
    // SAFETY: pointer and length are those of a slice that is lent for the call.
    unsafe { algebra_check_language(language.as_ptr(), language.len()) }
}

/// Checks a translation and gives the number.
pub fn check_translation(translation: &[u8]) -> u32 {
    // SAFETY: pointer and length are those of a slice that is lent for the call.
    unsafe { algebra_check_translation(translation.as_ptr(), translation.len()) }
}

/// Checks a tree and gives the number.
pub fn check_tree(language: &[u8], root: u32, tree: &[u8]) -> u32 {
    // SAFETY: pointers and lengths are those of slices that are lent for the call.
    unsafe {
        algebra_check_tree(language.as_ptr(), language.len(), root, tree.as_ptr(), tree.len())
    }
}

/// Reduces a pack; the result is at the start of the output.
///
/// The workspace is all zero at the end, unless the number is 1 to 4, 8 or 9, which leave it as
/// it was.
pub fn reduce(pack: &[u8], workspace: &mut [u8], output: &mut [u8]) -> Answer {
    let mut length = NOT_STORED;
    // SAFETY: pointers and lengths are those of slices that are lent for the call;
    // workspace and output are lent for writing and overlap nothing.
    let number = unsafe {
        algebra_reduce(
            pack.as_ptr(),
            pack.len(),
            workspace.as_mut_ptr(),
            workspace.len(),
            output.as_mut_ptr(),
            output.len(),
            &mut length,
        )
    };
    Answer { number, length }
}

/// Runs a translation on a tree by a number of the root; the result is at the start of the output.
pub fn run(
    translation: &[u8],
    root: u32,
    number: u32,
    tree: &[u8],
    output: &mut [u8],
) -> RunAnswer {
    let (mut length, mut cost) = (NOT_STORED, COST_NOT_STORED);
    // SAFETY: pointers and lengths are those of slices that are lent for the call; the
    // output is lent for writing and overlaps nothing.
    let number = unsafe {
        algebra_run(
            translation.as_ptr(),
            translation.len(),
            root,
            number,
            tree.as_ptr(),
            tree.len(),
            output.as_mut_ptr(),
            output.len(),
            &mut length,
            &mut cost,
        )
    };
    RunAnswer { number, length, cost }
}
