//! The score of a tree, and a table joined onto a translation.

use super::{Answer, NOT_STORED};

extern "C" {
    fn algebra_score(
        language: *const u8,
        language_length: usize,
        root: u32,
        tree: *const u8,
        tree_length: usize,
        table: *const u8,
        table_length: usize,
        score: *mut i64,
    ) -> u32;
    fn algebra_join_table(
        translation: *const u8,
        translation_length: usize,
        table: *const u8,
        table_length: usize,
        output: *mut u8,
        output_length: usize,
        length: *mut u64,
    ) -> u32;
}

/// What a score answers, as the library gives it.
#[derive(Clone, Copy, Debug, PartialEq, Eq)]
pub struct ScoreAnswer {
    /// 0, or the number of the refusal.
    pub number: u32,
    /// The score, 0 for a refusal.
    pub score: i64,
}

/// Scores a tree by a table.
pub fn score(language: &[u8], root: u32, tree: &[u8], table: &[u8]) -> ScoreAnswer {
    let mut score = i64::MIN;
    // SAFETY: pointers and lengths are those of slices that are lent for the call, and the
    // score is lent for writing.
    let number = unsafe {
        algebra_score(
            language.as_ptr(),
            language.len(),
            root,
            tree.as_ptr(),
            tree.len(),
            table.as_ptr(),
            table.len(),
            &mut score,
        )
    };
    ScoreAnswer { number, score }
}

/// Joins a table onto a translation; the joined table is at the start of the output.
pub fn join_table(translation: &[u8], table: &[u8], output: &mut [u8]) -> Answer {
    let mut length = NOT_STORED;
    // SAFETY: pointers and lengths are those of slices that are lent for the call; the
    // output is lent for writing and overlaps nothing.
    let number = unsafe {
        algebra_join_table(
            translation.as_ptr(),
            translation.len(),
            table.as_ptr(),
            table.len(),
            output.as_mut_ptr(),
            output.len(),
            &mut length,
        )
    };
    Answer { number, length }
}
