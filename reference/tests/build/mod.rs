//! Builders of files for the tests, and reductions with their buffers checked.
#![allow(dead_code, unused_imports)]

pub use reference::files::*;
use reference::reduce;

/// Reduces with the least room and checks what must hold of output and workspace.
pub fn reduce_answer(pack: &[u8]) -> (u32, Vec<u8>) {
    let mut workspace = vec![0xAA; 65_600];
    let mut output = vec![0xBB; 4100];
    let outcome = reduce(pack, &mut workspace, &mut output);
    let number = outcome.number();
    let kept = matches!(number, 1..=4 | 8 | 9);
    let expected = if kept { 0xAA } else { 0 };
    assert!(workspace.iter().all(|&byte| byte == expected));
    let (result, rest) = output.split_at(outcome.length() as usize);
    assert!(rest.iter().all(|&byte| byte == 0xBB));
    assert!(number == 0 || result.is_empty());
    (number, result.to_vec())
}

/// Ranges beside 5 to 9, with whether they are equal to it, and whether they lie inside it.
pub const RANGES: [(u16, u16, bool, bool); 17] = [
    (5, 9, true, true),
    (6, 8, false, true),
    (7, 7, false, true),
    (5, 8, false, true),
    (6, 9, false, true),
    (5, 5, false, true),
    (9, 9, false, true),
    (4, 9, false, false),
    (5, 10, false, false),
    (4, 10, false, false),
    (4, 5, false, false),
    (9, 10, false, false),
    (4, 4, false, false),
    (10, 10, false, false),
    (0, 3, false, false),
    (11, 65_535, false, false),
    (0, 65_535, false, false),
];

/// The translation that a pack reduces to.
pub fn reduced(pack: &[u8]) -> Vec<u8> {
    let (number, result) = reduce_answer(pack);
    assert_eq!(number, 0);
    result
}

/// The number of reducing a pack.
pub fn reduce_number(pack: &[u8]) -> u32 {
    reduce_answer(pack).0
}
