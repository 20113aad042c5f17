//! The index of a plan: for each node, tokens too, in reading order its start and its length.

use crate::grammar::Grammar;
use crate::language::read_language;
use crate::outcome::{require, Outcome, Refusal};
use crate::tree::{read_tree, root_kind, Nothing};

/// A tree with an index has at most this many bytes.
pub const INDEXED_BYTES: usize = 65_535;
/// The bytes for a node: two for its start, two for its length.
pub const ENTRY_BYTES: usize = 4;

/// Gathers the entries of a legal tree.
struct Indexer<'a> {
    grammar: &'a Grammar<'a>,
    tree: &'a [u8],
    index: Vec<u8>,
}

impl Indexer<'_> {
    /// Appends the entries of the tree of a kind at a place, and gives where it ends.
    fn put(&mut self, kind: u8, start: usize) -> usize {
        let entry = self.index.len();
        self.index.extend_from_slice(&[0; ENTRY_BYTES]);
        let end = match self.grammar.class(kind) {
            Some(_) => start + 2,
            None => self.put_arguments(kind, start),
        };
        let [start_high, start_low] = (start as u16).to_be_bytes();
        let [high, low] = ((end - start) as u16).to_be_bytes();
        self.index[entry..entry + ENTRY_BYTES].copy_from_slice(&[start_high, start_low, high, low]);
        end
    }

    /// Appends the entries of the arguments of the production at a place, and gives their end.
    fn put_arguments(&mut self, kind: u8, start: usize) -> usize {
        let place = self.grammar.place(kind, self.tree[start]).expect("a legal tree");
        let arguments = self.grammar.production(place).arguments();
        arguments.iter().fold(start + 1, |place, &argument| self.put(argument, place))
    }
}

/// The entries of a legal tree; the numbers of one that is too long are cut to two bytes.
pub fn entries(grammar: &Grammar, root: u8, tree: &[u8]) -> Vec<u8> {
    let mut indexer = Indexer { grammar, tree, index: Vec::new() };
    indexer.put(root, 0);
    indexer.index
}

/// The index of a legal tree, or the refusal of one that is too long.
pub fn index_of(grammar: &Grammar, root: u8, tree: &[u8]) -> Result<Vec<u8>, Refusal> {
    require(tree.len() <= INDEXED_BYTES, Refusal::Index)?;
    Ok(entries(grammar, root, tree))
}

/// Refuses a legal tree that is too long, and an index that is not its own.
pub fn check_index(grammar: &Grammar, root: u8, tree: &[u8], index: &[u8]) -> Result<(), Refusal> {
    require(index_of(grammar, root, tree)? == index, Refusal::Index)
}

/// Puts a result at the start of an output that is long enough.
pub fn put_result(result: &[u8], output: &mut [u8]) -> Result<u64, Refusal> {
    let place = output.get_mut(..result.len()).ok_or(Refusal::Output)?;
    place.copy_from_slice(result);
    Ok(result.len() as u64)
}

/// Builds the index of a tree of the root kind.
pub fn index(language: &[u8], root: u32, tree: &[u8], output: &mut [u8]) -> Outcome {
    write_index(language, root, tree, output).into()
}

/// The tests of `index` in order, and then its result.
fn write_index(language: &[u8], root: u32, tree: &[u8], output: &mut [u8]) -> Result<u64, Refusal> {
    let language = read_language(language)?;
    let root = root_kind(&language, root)?;
    let grammar = Grammar::new(&language);
    read_tree(&grammar, root, tree, Nothing, ())?;
    put_result(&index_of(&grammar, root, tree)?, output)
}
