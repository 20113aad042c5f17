//! A plan masked by a viewer's card.

use super::{Answer, NOT_STORED};

extern "C" {
    fn algebra_mask(
        language: *const u8,
        language_length: usize,
        root: u32,
        card: *const u8,
        card_length: usize,
        tree: *const u8,
        tree_length: usize,
        output: *mut u8,
        output_length: usize,
        length: *mut u64,
    ) -> u32;
}

/// Masks a tree by a card; the masked plan is at the start of the output.
pub fn mask(language: &[u8], root: u32, card: &[u8], tree: &[u8], output: &mut [u8]) -> Answer {
    let mut length = NOT_STORED;
    // SAFETY: pointers and lengths are those of slices that are lent for the call; the
    // output is lent for writing and overlaps nothing.
    let number = unsafe {
        algebra_mask(
            language.as_ptr(),
            language.len(),
            root,
            card.as_ptr(),
            card.len(),
            tree.as_ptr(),
            tree.len(),
            output.as_mut_ptr(),
            output.len(),
            &mut length,
        )
    };
    Answer { number, length }
}
