//! Long trees with the language of which they are.

use super::languages::encoded;
use super::long::long_run_case;
use super::random::Random;
use super::trees::TreeCase;
use crate::translation::read_translation;

/// The tree of a run on a long tree, with the source of the translation; sometimes damaged.
pub fn long_tree_case(random: &mut Random) -> TreeCase {
    loop {
        let case = long_run_case(random).case;
        if let Ok(translation) = read_translation(&case.translation) {
            let language = encoded(&translation.source);
            return TreeCase { language, root: case.root, tree: case.tree };
        }
    }
}
