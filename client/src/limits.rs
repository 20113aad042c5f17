//! The limits of the formats, and what a call asks for.

/// A language has at most this many bytes.
pub const LANGUAGE_BYTES: usize = 1024;
/// A translation has at most this many bytes.
pub const TRANSLATION_BYTES: usize = 4096;
/// The load table of a language has fewer bytes: the line of a production is shorter than twice the
/// production.
pub const TABLE_BYTES: usize = 2 * LANGUAGE_BYTES;
/// A pack has at most this many bytes.
pub const PACK_BYTES: usize = 32_768;
/// There are so many kinds, with numbers from 0.
pub const KINDS: usize = 32;
/// A kind has at most so many mappings, with numbers from 0.
pub const MAPPING_NUMBERS: usize = 256;
/// In an operand of a join a kind has at most so many mappings, with numbers from 0.
pub const JOINED_NUMBERS: usize = 16;
/// A production has at most this many arguments.
pub const ARGUMENTS: usize = 8;
/// A tree that is handed in has at most this many levels; a token is none.
pub const TREE_LEVELS: usize = 64;
/// The code of a clause has at most this many levels; a token is none.
pub const CODE_LEVELS: usize = 16;
/// A term has at most this many levels.
pub const TERM_LEVELS: usize = 12;
/// A tree that has an index has at most this many bytes.
pub const INDEXED_BYTES: usize = 65_535;
/// An index has so many bytes for each node.
pub const ENTRY_BYTES: usize = 4;
/// What stands for a hidden block in a masked plan.
pub const HIDDEN_BYTE: u8 = 0xFF;
/// A search is for trees of at most so many levels.
pub const SEARCH_LEVELS: u32 = 16;
/// The workspace of a search has so many bytes for each byte of the tree, where it is to be fast.
pub const SEARCH_WORKSPACE: usize = 36;
/// The workspace of [`raw::reduce`](crate::raw::reduce) has at least this many bytes.
pub const WORKSPACE_BYTES: usize = 65_536;
/// A call uses at most this many bytes of stack.
pub const STACK_BYTES: usize = 327_680;

#[cfg(test)]
mod tests {
    use super::*;

    /// The header for C.
    const HEADER: &str = include_str!("../../include/algebra.h");

    /// The number that the header defines by a name.
    fn defined(name: &str) -> Option<usize> {
        let start = format!("#define ALGEBRA_{name} ");
        let text = HEADER.lines().find_map(|line| line.strip_prefix(&start))?.trim();
        match text.strip_prefix("0x") {
            Some(digits) => usize::from_str_radix(digits, 16).ok(),
            None => text.parse().ok(),
        }
    }

    #[test]
    fn limits_are_those_of_the_header() {
        for (name, limit) in [
            ("LANGUAGE_BYTES", LANGUAGE_BYTES),
            ("TRANSLATION_BYTES", TRANSLATION_BYTES),
            ("OUTPUT_BYTES", TRANSLATION_BYTES),
            ("PACK_BYTES", PACK_BYTES),
            ("KINDS", KINDS),
            ("MAPPING_NUMBERS", MAPPING_NUMBERS),
            ("JOINED_NUMBERS", JOINED_NUMBERS),
            ("ARGUMENTS", ARGUMENTS),
            ("TREE_LEVELS", TREE_LEVELS),
            ("CODE_LEVELS", CODE_LEVELS),
            ("TERM_LEVELS", TERM_LEVELS),
            ("INDEXED_BYTES", INDEXED_BYTES),
            ("ENTRY_BYTES", ENTRY_BYTES),
            ("NO_NAME", crate::raw::NO_NAME as usize),
            ("HIDDEN_BYTE", HIDDEN_BYTE.into()),
            ("SEARCH_LEVELS", SEARCH_LEVELS as usize),
            ("SEARCH_WORKSPACE", SEARCH_WORKSPACE),
            ("WORKSPACE_BYTES", WORKSPACE_BYTES),
            ("STACK_BYTES", STACK_BYTES),
        ] {
            assert_eq!(defined(name), Some(limit), "{name}");
        }
    }
}
