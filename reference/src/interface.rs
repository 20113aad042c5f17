//! The functions of the C interface as the header declares them, and calls of those that the crate
//! `algebra` does not make.
#![allow(unsafe_code)]

use crate::call::Answer;
use crate::generate::{BlockCase, TreeCase};

extern "C" {
    pub fn algebra_check_language(language: *const u8, language_length: usize) -> u32;
    pub fn algebra_check_translation(translation: *const u8, translation_length: usize) -> u32;
    pub fn algebra_check_tree(
        language: *const u8,
        language_length: usize,
        root: u32,
        tree: *const u8,
        tree_length: usize,
    ) -> u32;
    pub fn algebra_reduce(
        pack: *const u8,
        pack_length: usize,
        workspace: *mut u8,
        workspace_length: usize,
        output: *mut u8,
        output_length: usize,
        length: *mut u64,
    ) -> u32;
    pub fn algebra_run(
        translation: *const u8,
        translation_length: usize,
        root: u32,
        number: u32,
        tree: *const u8,
        tree_length: usize,
        output: *mut u8,
        output_length: usize,
        length: *mut u64,
        cost: *mut u32,
    ) -> u32;
    pub fn algebra_score(
        language: *const u8,
        language_length: usize,
        root: u32,
        tree: *const u8,
        tree_length: usize,
        table: *const u8,
        table_length: usize,
        score: *mut i64,
    ) -> u32;
    pub fn algebra_score_loose(
        language: *const u8,
        language_length: usize,
        root: u32,
        plan: *const u8,
        plan_length: usize,
        table: *const u8,
        table_length: usize,
        least: *mut i64,
        greatest: *mut i64,
    ) -> u32;
    pub fn algebra_join_table(
        translation: *const u8,
        translation_length: usize,
        table: *const u8,
        table_length: usize,
        output: *mut u8,
        output_length: usize,
        length: *mut u64,
    ) -> u32;
    pub fn algebra_export(
        language: *const u8,
        language_length: usize,
        root: u32,
        tree: *const u8,
        tree_length: usize,
        output: *mut u8,
        output_length: usize,
        length: *mut u64,
    ) -> u32;
    pub fn algebra_import(
        language: *const u8,
        language_length: usize,
        root: u32,
        text: *const u8,
        text_length: usize,
        output: *mut u8,
        output_length: usize,
        length: *mut u64,
    ) -> u32;
    pub fn algebra_index(
        language: *const u8,
        language_length: usize,
        root: u32,
        tree: *const u8,
        tree_length: usize,
        output: *mut u8,
        output_length: usize,
        length: *mut u64,
    ) -> u32;
    pub fn algebra_block(
        language: *const u8,
        language_length: usize,
        root: u32,
        tree: *const u8,
        tree_length: usize,
        index: *const u8,
        index_length: usize,
        path: *const u8,
        path_length: usize,
        start: *mut u64,
        length: *mut u64,
        kind: *mut u32,
    ) -> u32;
    pub fn algebra_node(
        language: *const u8,
        language_length: usize,
        root: u32,
        tree: *const u8,
        tree_length: usize,
        index: *const u8,
        index_length: usize,
        path: *const u8,
        path_length: usize,
        kind: *mut u32,
        name: *mut u32,
        arguments: *mut u32,
    ) -> u32;
    pub fn algebra_locate(
        language: *const u8,
        language_length: usize,
        root: u32,
        tree: *const u8,
        tree_length: usize,
        position: *mut u64,
    ) -> u32;
    pub fn algebra_edit(
        language: *const u8,
        language_length: usize,
        root: u32,
        tree: *const u8,
        tree_length: usize,
        index: *const u8,
        index_length: usize,
        path: *const u8,
        path_length: usize,
        card: *const u8,
        card_length: usize,
        block: *const u8,
        block_length: usize,
        plan: *mut u8,
        plan_room: usize,
        plan_index: *mut u8,
        plan_index_room: usize,
        plan_length: *mut u64,
        plan_index_length: *mut u64,
    ) -> u32;
    pub fn algebra_mask(
        language: *const u8,
        language_length: usize,
        root: u32,
        card: *const u8,
        card_length: usize,
        tree: *const u8,
        tree_length: usize,
        output: *mut u8,
        output_length: usize,
        length: *mut u64,
    ) -> u32;
    pub fn algebra_search(
        translation: *const u8,
        translation_length: usize,
        root: u32,
        tree: *const u8,
        tree_length: usize,
        limit: u32,
        workspace: *mut u8,
        workspace_length: usize,
        output: *mut u8,
        output_length: usize,
        length: *mut u64,
    ) -> u32;
}

/// What a position is before a call, so that one that is not stored shows; and any other figure.
const NOT_STORED: u64 = u64::MAX;
const FIGURE_NOT_STORED: u32 = u32::MAX;

/// Where the tree of a case is at fault, by the library.
pub fn locate(case: &TreeCase) -> Answer {
    let TreeCase { language, root, tree } = case;
    let mut position = NOT_STORED;
    // SAFETY: pointers and lengths are those of slices that are lent for the call, and the position
    // is lent for writing.
    let number = unsafe {
        algebra_locate(
            language.as_ptr(),
            language.len(),
            *root,
            tree.as_ptr(),
            tree.len(),
            &mut position,
        )
    };
    Answer { number, position, ..Answer::default() }
}

/// What stands at the path of a case, by the library.
pub fn node(case: &BlockCase) -> Answer {
    let BlockCase { language, root, tree, index, path } = case;
    let [mut kind, mut name, mut arguments] = [FIGURE_NOT_STORED; 3];
    // SAFETY: pointers and lengths are those of slices that are lent for the call, and the figures
    // are lent for writing.
    let number = unsafe {
        algebra_node(
            language.as_ptr(),
            language.len(),
            *root,
            tree.as_ptr(),
            tree.len(),
            index.as_ptr(),
            index.len(),
            path.as_ptr(),
            path.len(),
            &mut kind,
            &mut name,
            &mut arguments,
        )
    };
    Answer { number, kind, name, arguments, ..Answer::default() }
}
