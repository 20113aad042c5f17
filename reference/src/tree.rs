//! Legal trees: one reader that checks a tree, and can weigh its nodes on the way.

use crate::field::two_bytes;
use crate::grammar::Grammar;
use crate::language::{bit, read_language, Class, Language, KINDS};
use crate::outcome::{require, Outcome, Refusal};

/// Trees handed in have at most this many levels; a token is none, any other node is one.
pub const TREE_LEVELS: usize = 64;

/// What is counted while a tree is read: each node has a weight handed down from its parent.
pub trait Tally {
    type Weight: Copy;

    /// Counts a token of a kind with a value.
    fn token(&mut self, kind: u8, value: u16, weight: Self::Weight);

    /// Counts a production, known by its place.
    fn production(&mut self, place: usize, weight: Self::Weight);

    /// The weight of an argument (numbered from 0) of a production with that weight.
    fn argument(&mut self, place: usize, number: usize, weight: Self::Weight) -> Self::Weight;
}

/// Counts nothing.
pub struct Nothing;

impl Tally for Nothing {
    type Weight = ();
    #[inline]
    fn token(&mut self, _: u8, _: u16, _: ()) {}
    #[inline]
    fn production(&mut self, _: usize, _: ()) {}
    #[inline]
    fn argument(&mut self, _: usize, _: usize, _: ()) {}
}

/// Reads a tree from left to right.
struct Reader<'a, T> {
    grammar: &'a Grammar<'a>,
    rest: &'a [u8],
    tally: T,
}

impl<T: Tally> Reader<'_, T> {
    /// Reads a tree of a kind with at most `levels` levels.
    #[inline]
    fn read(&mut self, kind: u8, levels: usize, weight: T::Weight) -> Result<(), Refusal> {
        match self.grammar.class(kind) {
            Some(class) => self.read_token(class, weight),
            None => self.read_production(kind, levels, weight),
        }
    }

    /// Reads a token of a class.
    #[inline]
    fn read_token(&mut self, class: Class, weight: T::Weight) -> Result<(), Refusal> {
        let [high, low, rest @ ..] = self.rest else {
            return Err(Refusal::Tree);
        };
        let value = two_bytes(*high, *low);
        require(class.has(value), Refusal::Tree)?;
        self.rest = rest;
        self.tally.token(class.kind, value, weight);
        Ok(())
    }

    /// Reads a production's name and its argument trees, if a level is left for it.
    fn read_production(
        &mut self,
        kind: u8,
        levels: usize,
        weight: T::Weight,
    ) -> Result<(), Refusal> {
        require(levels > 0, Refusal::Depth)?;
        let (&name, rest) = self.rest.split_first().ok_or(Refusal::Tree)?;
        let place = self.grammar.place(kind, name).ok_or(Refusal::Tree)?;
        self.rest = rest;
        self.tally.production(place, weight);
        let arguments = self.grammar.production(place).arguments();
        for (number, &argument) in arguments.iter().enumerate() {
            let weight = self.tally.argument(place, number, weight);
            self.read(argument, levels - 1, weight)?;
        }
        Ok(())
    }
}

/// Reads exactly one tree of the root kind and gives back the tally.
pub fn read_tree<T: Tally>(
    grammar: &Grammar,
    root: u8,
    tree: &[u8],
    tally: T,
    weight: T::Weight,
) -> Result<T, Refusal> {
    let mut reader = Reader { grammar, rest: tree, tally };
    reader.read(root, TREE_LEVELS, weight)?;
    require(reader.rest.is_empty(), Refusal::Tree)?;
    Ok(reader.tally)
}

/// Reads exactly one tree of a kind with at most so many levels.
pub fn read_levels(grammar: &Grammar, kind: u8, tree: &[u8], levels: usize) -> Result<(), Refusal> {
    let mut reader = Reader { grammar, rest: tree, tally: Nothing };
    reader.read(kind, levels, ())?;
    require(reader.rest.is_empty(), Refusal::Tree)
}

/// Where the legal tree of a kind that starts at a place ends.
pub fn tree_end(grammar: &Grammar, tree: &[u8], kind: u8, start: usize) -> usize {
    if grammar.class(kind).is_some() {
        return start + 2;
    }
    let place = grammar.place(kind, tree[start]).expect("a legal tree");
    let arguments = grammar.production(place).arguments();
    arguments.iter().fold(start + 1, |place, &kind| tree_end(grammar, tree, kind, place))
}

/// Whether the bytes are a legal tree of a kind, at any depth: no tree has more levels than bytes.
pub fn is_legal_tree(language: &Language, kind: u8, tree: &[u8]) -> bool {
    read_levels(&Grammar::new(language), kind, tree, tree.len()).is_ok()
}

/// The root as a kind of the language, or the refusal of a root that is not in it.
pub fn root_kind(language: &Language, root: u32) -> Result<u8, Refusal> {
    require((root as usize) < KINDS, Refusal::Root)?;
    require(language.kinds() & bit(root as u8) != 0, Refusal::Root)?;
    Ok(root as u8)
}

/// Checks that the bytes are a legal tree of the root kind in a language.
pub fn check_tree(language: &[u8], root: u32, tree: &[u8]) -> Outcome {
    accept_tree(language, root, tree).into()
}

/// The tests of `check_tree` in order.
fn accept_tree(language: &[u8], root: u32, tree: &[u8]) -> Result<(), Refusal> {
    let language = read_language(language)?;
    let root = root_kind(&language, root)?;
    read_tree(&Grammar::new(&language), root, tree, Nothing, ())?;
    Ok(())
}
