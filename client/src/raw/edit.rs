//! The index of a tree, and edits of a tree that has one.

use super::{Answer, NOT_STORED};

extern "C" {
    fn algebra_index(
        language: *const u8,
        language_length: usize,
        root: u32,
        tree: *const u8,
        tree_length: usize,
        output: *mut u8,
        output_length: usize,
        length: *mut u64,
    ) -> u32;
    fn algebra_edit(
        language: *const u8,
        language_length: usize,
        root: u32,
        tree: *const u8,
        tree_length: usize,
        index: *const u8,
        index_length: usize,
        path: *const u8,
        path_length: usize,
        card: *const u8,
        card_length: usize,
        block: *const u8,
        block_length: usize,
        plan: *mut u8,
        plan_room: usize,
        plan_index: *mut u8,
        plan_index_room: usize,
        plan_length: *mut u64,
        plan_index_length: *mut u64,
    ) -> u32;
}

/// What an edit answers, as the library gives it; a refusal has both lengths 0.
#[derive(Clone, Copy, Debug, PartialEq, Eq)]
pub struct EditAnswer {
    /// 0, or the number of the refusal.
    pub number: u32,
    /// The length of the new plan.
    pub plan_length: u64,
    /// The length of its index.
    pub index_length: u64,
}

/// Builds the index of a tree, which is at the start of the output.
pub fn index(language: &[u8], root: u32, tree: &[u8], output: &mut [u8]) -> Answer {
    let mut length = NOT_STORED;
    // SAFETY: pointers and lengths are those of slices that are lent for the call; the
    // output is lent for writing and overlaps nothing.
    let number = unsafe {
        algebra_index(
            language.as_ptr(),
            language.len(),
            root,
            tree.as_ptr(),
            tree.len(),
            output.as_mut_ptr(),
            output.len(),
            &mut length,
        )
    };
    Answer { number, length }
}

/// Replaces the block of a tree at a path, if the card shows the way there; the new plan and its
/// index are each at the start of their output.
#[allow(clippy::too_many_arguments)]
pub fn edit(
    language: &[u8],
    root: u32,
    tree: &[u8],
    index: &[u8],
    path: &[u8],
    card: &[u8],
    block: &[u8],
    plan: &mut [u8],
    plan_index: &mut [u8],
) -> EditAnswer {
    let (mut plan_length, mut index_length) = (NOT_STORED, NOT_STORED);
    // SAFETY: pointers and lengths are those of slices that are lent for the call; both
    // outputs are lent for writing and overlap nothing.
    let number = unsafe {
        algebra_edit(
            language.as_ptr(),
            language.len(),
            root,
            tree.as_ptr(),
            tree.len(),
            index.as_ptr(),
            index.len(),
            path.as_ptr(),
            path.len(),
            card.as_ptr(),
            card.len(),
            block.as_ptr(),
            block.len(),
            plan.as_mut_ptr(),
            plan.len(),
            plan_index.as_mut_ptr(),
            plan_index.len(),
            &mut plan_length,
            &mut index_length,
        )
    };
    EditAnswer { number, plan_length, index_length }
}
