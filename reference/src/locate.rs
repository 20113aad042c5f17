//! Where a tree is at fault: the answer of its check, and the place at which reading stopped.

use crate::field::two_bytes;
use crate::grammar::Grammar;
use crate::language::{read_language, Class};
use crate::outcome::{Outcome, Refusal};
use crate::tree::{root_kind, TREE_LEVELS};

/// What is answered: the outcome of the check of a tree, and where reading stopped. The position is 0
/// where the tree is accepted, or refused before it is read.
#[derive(Clone, Copy, Debug, PartialEq, Eq)]
pub struct Located {
    pub outcome: Outcome,
    pub position: u64,
}

/// Why a tree cannot be read on, and where.
struct Stop {
    reason: Refusal,
    position: usize,
}

/// A node that is still to come: its kind, and its level if it is no token.
struct Owed {
    kind: u8,
    level: usize,
}

/// A tree that is read from left to right, with all nodes that are still to come, the next one last.
struct Reading<'a> {
    grammar: &'a Grammar<'a>,
    tree: &'a [u8],
    at: usize,
    owed: Vec<Owed>,
}

impl Reading<'_> {
    /// Reads until nothing is owed, and nothing may be left then.
    fn whole(mut self) -> Result<(), Stop> {
        while let Some(owed) = self.owed.pop() {
            match self.grammar.class(owed.kind) {
                Some(class) => self.token(class)?,
                None => self.production(owed)?,
            }
        }
        match self.tree.len() - self.at {
            0 => Ok(()),
            _ => Err(self.stop(Refusal::Tree)),
        }
    }

    /// Reads a token of a class.
    fn token(&mut self, class: Class) -> Result<(), Stop> {
        let [high, low, ..] = self.tree[self.at..] else { return Err(self.ended()) };
        if !class.has(two_bytes(high, low)) {
            return Err(self.stop(Refusal::Tree));
        }
        self.at += 2;
        Ok(())
    }

    /// Reads the name of a production, whose arguments are owed then.
    fn production(&mut self, Owed { kind, level }: Owed) -> Result<(), Stop> {
        if level > TREE_LEVELS {
            return Err(self.stop(Refusal::Depth));
        }
        let Some(&name) = self.tree.get(self.at) else { return Err(self.ended()) };
        let Some(place) = self.grammar.place(kind, name) else {
            return Err(self.stop(Refusal::Tree));
        };
        self.at += 1;
        let arguments = self.grammar.production(place).arguments().iter().rev();
        self.owed.extend(arguments.map(|&kind| Owed { kind, level: level + 1 }));
        Ok(())
    }

    /// A stop at the node, or the byte, that would be read next.
    fn stop(&self, reason: Refusal) -> Stop {
        Stop { reason, position: self.at }
    }

    /// A stop because the input ends too early, be it in a token.
    fn ended(&self) -> Stop {
        Stop { reason: Refusal::Tree, position: self.tree.len() }
    }
}

/// Checks that the bytes are a legal tree of the root kind in a language, and tells where they are not.
pub fn locate(language: &[u8], root: u32, tree: &[u8]) -> Located {
    match find_stop(language, root, tree) {
        Ok(()) => Located { outcome: Outcome::Accepted(0), position: 0 },
        Err(Stop { reason, position }) => {
            Located { outcome: Outcome::Refused(reason), position: position as u64 }
        }
    }
}

/// The tests of `locate` in order.
fn find_stop(language: &[u8], root: u32, tree: &[u8]) -> Result<(), Stop> {
    let before = |reason| Stop { reason, position: 0 };
    let language = read_language(language).map_err(before)?;
    let kind = root_kind(&language, root).map_err(before)?;
    let owed = vec![Owed { kind, level: 1 }];
    Reading { grammar: &Grammar::new(&language), tree, at: 0, owed }.whole()
}
