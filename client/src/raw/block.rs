//! The lookup of a block.

use super::NOT_STORED;

extern "C" {
    fn algebra_block(
        language: *const u8,
        language_length: usize,
        root: u32,
        tree: *const u8,
        tree_length: usize,
        index: *const u8,
        index_length: usize,
        path: *const u8,
        path_length: usize,
        start: *mut u64,
        length: *mut u64,
        kind: *mut u32,
    ) -> u32;
}

/// What a lookup answers, as the library gives it; a refusal has start, length and kind 0.
#[derive(Clone, Copy, Debug, PartialEq, Eq)]
pub struct BlockAnswer {
    /// 0, or the number of the refusal.
    pub number: u32,
    /// Where the block starts in the tree.
    pub start: u64,
    /// The length of the block.
    pub length: u64,
    /// The kind of the block.
    pub kind: u32,
}

/// Looks up the block of a tree, with its index, at a path.
pub fn block(language: &[u8], root: u32, tree: &[u8], index: &[u8], path: &[u8]) -> BlockAnswer {
    let (mut start, mut length, mut kind) = (NOT_STORED, NOT_STORED, u32::MAX);
    // SAFETY: pointers and lengths are those of slices that are lent for the call, and the
    // figures are lent for writing.
    let number = unsafe {
        algebra_block(
            language.as_ptr(),
            language.len(),
            root,
            tree.as_ptr(),
            tree.len(),
            index.as_ptr(),
            index.len(),
            path.as_ptr(),
            path.len(),
            &mut start,
            &mut length,
            &mut kind,
        )
    };
    BlockAnswer { number, start, length, kind }
}
