//! Trees of exactly so many bytes, in a language in which there are trees of every length.

use super::random::Random;
use crate::language::{Class, Language, Production};

/// The kind of the trees, and that of the tokens.
pub const EXACT_KIND: u8 = 1;
const TOKEN_KIND: u8 = 2;

/// Names: a leaf, a link, a token, and eight trees.
const LEAF: u8 = 0;
const LINK: u8 = 1;
const TOKEN: u8 = 3;
const EIGHT: u8 = 8;
/// The arguments of `EIGHT`.
const PARTS: usize = 8;

/// The language.
pub fn exact_language() -> Language {
    let arguments: [(u8, &[u8]); 4] =
        [(LEAF, &[]), (LINK, &[EXACT_KIND]), (TOKEN, &[TOKEN_KIND]), (EIGHT, &[EXACT_KIND; PARTS])];
    let productions = arguments.map(|(name, of)| Production::new(EXACT_KIND, name, of));
    let classes = vec![Class::plain(TOKEN_KIND, 0, u16::MAX)];
    Language { classes, productions: productions.to_vec() }
}

/// Appends a tree of exactly so many bytes, one or more.
fn put_exact(random: &mut Random, bytes: usize, tree: &mut Vec<u8>) {
    match bytes {
        1 => tree.push(LEAF),
        3 if random.percent(70) => tree.extend([TOKEN, random.byte(), random.byte()]),
        2..=PARTS => {
            tree.push(LINK);
            put_exact(random, bytes - 1, tree);
        }
        _ => {
            tree.push(EIGHT);
            put_parts(random, bytes - 1, tree);
        }
    }
}

/// Appends eight trees that have so many bytes together; all but the last are about equal.
fn put_parts(random: &mut Random, bytes: usize, tree: &mut Vec<u8>) {
    let mut left = bytes;
    for others in (1..PARTS).rev() {
        let share = left / (others + 1);
        let part = random.within(share.div_ceil(2)..=share);
        put_exact(random, part, tree);
        left -= part;
    }
    put_exact(random, left, tree);
}

/// A tree of exactly so many bytes, one or more, below some links.
pub fn exact_tree(random: &mut Random, bytes: usize) -> Vec<u8> {
    let links = random.pick(&[0, 0, 1, 30]).min(bytes - 1);
    let mut tree = vec![LINK; links];
    put_exact(random, bytes - links, &mut tree);
    tree
}
