//! Where the reading of a tree stopped.

use super::NOT_STORED;

extern "C" {
    fn algebra_locate(
        language: *const u8,
        language_length: usize,
        root: u32,
        tree: *const u8,
        tree_length: usize,
        position: *mut u64,
    ) -> u32;
}

/// What a check of a tree answers that tells where it stopped, as the library gives it.
#[derive(Clone, Copy, Debug, PartialEq, Eq)]
pub struct LocateAnswer {
    /// 0, or the number of the refusal.
    pub number: u32,
    /// Where reading stopped in the tree if the number is 15 or 16, and 0 otherwise.
    pub position: u64,
}

/// Checks a tree, and tells where reading stopped if it is refused.
pub fn locate(language: &[u8], root: u32, tree: &[u8]) -> LocateAnswer {
    let mut position = NOT_STORED;
    // SAFETY: pointers and lengths are those of slices that are lent for the call, and the
    // position is lent for writing.
    let number = unsafe {
        algebra_locate(
            language.as_ptr(),
            language.len(),
            root,
            tree.as_ptr(),
            tree.len(),
            &mut position,
        )
    };
    LocateAnswer { number, position }
}
