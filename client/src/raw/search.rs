//! The search for a source tree.

use super::{Answer, NOT_STORED};

extern "C" {
    fn algebra_search(
        translation: *const u8,
        translation_length: usize,
        root: u32,
        tree: *const u8,
        tree_length: usize,
        limit: u32,
        workspace: *mut u8,
        workspace_length: usize,
        output: *mut u8,
        output_length: usize,
        length: *mut u64,
    ) -> u32;
}

/// Searches for the first source tree within a limit of levels that runs to a tree; what is found
/// is at the start of the output.
///
/// The workspace may have any length. It is all zero at the end where the number is 0, 17 or 23,
/// and as it was otherwise.
pub fn search(
    translation: &[u8],
    root: u32,
    tree: &[u8],
    limit: u32,
    workspace: &mut [u8],
    output: &mut [u8],
) -> Answer {
    let mut length = NOT_STORED;
    // SAFETY: pointers and lengths are those of slices that are lent for the call;
    // workspace and output are lent for writing and overlap nothing.
    let number = unsafe {
        algebra_search(
            translation.as_ptr(),
            translation.len(),
            root,
            tree.as_ptr(),
            tree.len(),
            limit,
            workspace.as_mut_ptr(),
            workspace.len(),
            output.as_mut_ptr(),
            output.len(),
            &mut length,
        )
    };
    Answer { number, length }
}
