//! Export and import.

use super::{Answer, NOT_STORED};

extern "C" {
    fn algebra_export(
        language: *const u8,
        language_length: usize,
        root: u32,
        tree: *const u8,
        tree_length: usize,
        output: *mut u8,
        output_length: usize,
        length: *mut u64,
    ) -> u32;
    fn algebra_import(
        language: *const u8,
        language_length: usize,
        root: u32,
        text: *const u8,
        text_length: usize,
        output: *mut u8,
        output_length: usize,
        length: *mut u64,
    ) -> u32;
}

/// Exports a tree as XML; the text is at the start of the output.
pub fn export(language: &[u8], root: u32, tree: &[u8], output: &mut [u8]) -> Answer {
    let mut length = NOT_STORED;
    // SAFETY: pointers and lengths are those of slices that are lent for the call; the
    // output is lent for writing and overlaps nothing.
    let number = unsafe {
        algebra_export(
            language.as_ptr(),
            language.len(),
            root,
            tree.as_ptr(),
            tree.len(),
            output.as_mut_ptr(),
            output.len(),
            &mut length,
        )
    };
    Answer { number, length }
}

/// Imports a tree from its export; the tree is at the start of the output.
pub fn import(language: &[u8], root: u32, text: &[u8], output: &mut [u8]) -> Answer {
    let mut length = NOT_STORED;
    // SAFETY: pointers and lengths are those of slices that are lent for the call; the
    // output is lent for writing and overlaps nothing.
    let number = unsafe {
        algebra_import(
            language.as_ptr(),
            language.len(),
            root,
            text.as_ptr(),
            text.len(),
            output.as_mut_ptr(),
            output.len(),
            &mut length,
        )
    };
    Answer { number, length }
}
