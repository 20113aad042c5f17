//! What stands at a path: the kind of a block, its production's name and how many arguments it has.

use crate::block::find_indexed_place;
use crate::grammar::Grammar;
use crate::language::read_language;
use crate::outcome::{Outcome, Refusal};
use crate::tree::root_kind;

/// The name of a token, which has none: no production has it.
pub const NO_NAME: u32 = 256;

/// What is answered: kind, name and number of arguments, all 0 for a refusal.
#[derive(Clone, Copy, Debug, PartialEq, Eq)]
pub struct Node {
    pub outcome: Outcome,
    pub kind: u32,
    pub name: u32,
    pub arguments: u32,
}

/// What stands in a tree of the root kind, with its index, at a path.
pub fn node(language: &[u8], root: u32, tree: &[u8], index: &[u8], path: &[u8]) -> Node {
    match find_node(language, root, tree, index, path) {
        Ok(node) => node,
        Err(reason) => Node { outcome: Outcome::Refused(reason), kind: 0, name: 0, arguments: 0 },
    }
}

/// The tests of `node` in order, which are those of a lookup, and then its result.
fn find_node(
    language: &[u8],
    root: u32,
    tree: &[u8],
    index: &[u8],
    path: &[u8],
) -> Result<Node, Refusal> {
    let language = read_language(language)?;
    let root = root_kind(&language, root)?;
    let grammar = Grammar::new(&language);
    let place = find_indexed_place(&grammar, root, tree, index, path)?;
    let (outcome, kind) = (Outcome::Accepted(0), u32::from(place.kind));
    if grammar.class(place.kind).is_some() {
        return Ok(Node { outcome, kind, name: NO_NAME, arguments: 0 });
    }
    let arguments = place.arguments(&grammar, tree).len() as u32;
    Ok(Node { outcome, kind, name: u32::from(tree[place.start]), arguments })
}
