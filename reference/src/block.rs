//! One block of a tree: the part of the lent tree to which a path of argument numbers leads.

use crate::grammar::Grammar;
use crate::index::check_index;
use crate::language::read_language;
use crate::outcome::{Outcome, Refusal};
use crate::tree::{read_tree, root_kind, tree_end, Nothing};

/// What a lookup answers: the block as a part of the lent tree, where it starts, and its kind.
/// A refusal has an empty part, start 0 and kind 0.
#[derive(Clone, Copy, Debug, PartialEq, Eq)]
pub struct Block<'a> {
    pub outcome: Outcome,
    pub part: &'a [u8],
    pub start: u64,
    pub kind: u32,
}

/// A node of a legal tree: its kind, where it starts, and where it ends if that is known.
#[derive(Clone, Copy, Debug)]
pub struct Place {
    pub kind: u8,
    pub start: usize,
    end: Option<usize>,
}

impl Place {
    /// The root of a tree.
    pub fn root(kind: u8, tree: &[u8]) -> Place {
        Place { kind, start: 0, end: Some(tree.len()) }
    }

    /// The kinds of the arguments; a token has none.
    pub fn arguments<'a>(&self, grammar: &Grammar<'a>, tree: &[u8]) -> &'a [u8] {
        if grammar.class(self.kind).is_some() {
            return &[];
        }
        let place = grammar.place(self.kind, tree[self.start]).expect("a legal tree");
        grammar.production(place).arguments()
    }

    /// The argument with that number, counted from 1; the last one ends where its production does.
    pub fn argument(&self, grammar: &Grammar, tree: &[u8], number: u8) -> Option<Place> {
        let arguments = self.arguments(grammar, tree);
        let before = usize::from(number).checked_sub(1)?;
        let kind = *arguments.get(before)?;
        let skip = |place, &kind: &u8| tree_end(grammar, tree, kind, place);
        let start = arguments[..before].iter().fold(self.start + 1, skip);
        let end = self.end.filter(|_| before + 1 == arguments.len());
        Some(Place { kind, start, end })
    }

    /// Where the node ends.
    pub fn end(&self, grammar: &Grammar, tree: &[u8]) -> usize {
        self.end.unwrap_or_else(|| tree_end(grammar, tree, self.kind, self.start))
    }
}

/// The node of a legal tree to which a path leads.
pub fn find_place(grammar: &Grammar, root: u8, tree: &[u8], path: &[u8]) -> Result<Place, Refusal> {
    let step = |place: Place, &number: &u8| place.argument(grammar, tree, number);
    path.iter().try_fold(Place::root(root, tree), step).ok_or(Refusal::Path)
}

/// The node to which a path leads in a tree that must be legal and have this index.
pub fn find_indexed_place(
    grammar: &Grammar,
    root: u8,
    tree: &[u8],
    index: &[u8],
    path: &[u8],
) -> Result<Place, Refusal> {
    read_tree(grammar, root, tree, Nothing, ())?;
    check_index(grammar, root, tree, index)?;
    find_place(grammar, root, tree, path)
}

/// The block of a tree of the root kind, with its index, at a path.
pub fn block<'a>(
    language: &[u8],
    root: u32,
    tree: &'a [u8],
    index: &[u8],
    path: &[u8],
) -> Block<'a> {
    match find_block(language, root, tree, index, path) {
        Ok(block) => block,
        Err(reason) => Block { outcome: Outcome::Refused(reason), part: &[], start: 0, kind: 0 },
    }
}

/// The tests of `block` in order, and then its result.
fn find_block<'a>(
    language: &[u8],
    root: u32,
    tree: &'a [u8],
    index: &[u8],
    path: &[u8],
) -> Result<Block<'a>, Refusal> {
    let language = read_language(language)?;
    let root = root_kind(&language, root)?;
    let grammar = Grammar::new(&language);
    let place = find_indexed_place(&grammar, root, tree, index, path)?;
    let part = &tree[place.start..place.end(&grammar, tree)];
    let outcome = Outcome::Accepted(part.len() as u64);
    Ok(Block { outcome, part, start: place.start as u64, kind: u32::from(place.kind) })
}
