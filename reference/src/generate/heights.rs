//! Which heights the trees of each kind can have: a token has none, a production one more than
//! the highest of its arguments.

use crate::language::{bit, Kinds, Language, Production};

/// Heights are worked out up to this one.
pub const MOST: usize = 66;

/// For each height the kinds with a tree of exactly that height, and of at most that height.
pub struct Heights {
    exact: [Kinds; MOST + 1],
    up_to: [Kinds; MOST + 1],
}

impl Heights {
    /// Works out the heights for a language.
    pub fn new(language: &Language) -> Heights {
        let mut heights = Heights { exact: [0; MOST + 1], up_to: [0; MOST + 1] };
        heights.exact[0] = language.class_kinds();
        heights.up_to[0] = heights.exact[0];
        for height in 1..=MOST {
            let results = language.productions.iter();
            let results = results.filter(|production| heights.allows(production, height));
            let exact = results.fold(0, |kinds, production| kinds | bit(production.result));
            heights.exact[height] = exact;
            heights.up_to[height] = heights.up_to[height - 1] | exact;
        }
        heights
    }

    /// Whether a tree of the production can have exactly that height.
    pub fn allows(&self, production: &Production, height: usize) -> bool {
        let arguments = production.arguments();
        if height == 0 || arguments.is_empty() {
            return height == 1;
        }
        arguments.iter().all(|&kind| self.up_to[height - 1] & bit(kind) != 0)
            && arguments.iter().any(|&kind| self.exact[height - 1] & bit(kind) != 0)
    }

    /// Whether a tree of the kind can have exactly that height.
    pub fn has(&self, kind: u8, height: usize) -> bool {
        height <= MOST && self.exact[height] & bit(kind) != 0
    }

    /// The least height of a tree of the kind, if there is a tree.
    pub fn least(&self, kind: u8) -> Option<usize> {
        (0..=MOST).find(|&height| self.has(kind, height))
    }

    /// The greatest height of a tree of the kind that is not above the limit.
    pub fn greatest(&self, kind: u8, limit: usize) -> Option<usize> {
        (0..=limit.min(MOST)).rev().find(|&height| self.has(kind, height))
    }
}
