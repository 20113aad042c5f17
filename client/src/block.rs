//! One block of a tree, and what stands there.

use crate::output::accepted;
use crate::{raw, BlockPath, Index, Kind, Language, Refusal, Tree};

/// A block of a tree: the part of the tree itself, where it starts, and its kind.
#[derive(Clone, Copy, Debug, PartialEq, Eq, Hash)]
pub struct Block<'a> {
    /// The bytes of the block, as the caller's tree holds them.
    pub bytes: &'a [u8],
    /// Where the block starts in the tree.
    pub start: usize,
    /// The kind of the block; its bytes are a legal tree of that kind.
    pub kind: Kind,
}

/// Looks up the block of a tree, with its index, at a path of argument numbers, which count from 1.
/// The empty path gives the whole tree. Nothing is copied: the block is a part of the tree that is
/// lent.
///
/// # Errors
///
/// Refusals: 1 to 4, 14 to 16, 21, 22.
///
/// ```
/// use algebra::write::{production, token};
/// use algebra::{block, index_to_vec, BlockPath, Index, Kind, Language, Refusal, Tree};
///
/// const BLOCK: Kind = Kind(1);
/// const MINUTES: Kind = Kind(2);
/// const ROW: u8 = 1;
/// const SEQUENCE: u8 = 2;
/// let strap = Language(include_bytes!("../../examples/strap/strap.language"));
///
/// // A row of 5 minutes, then one of 7.
/// let session = production(SEQUENCE, [5, 7].map(|minutes| production(ROW, [token(minutes)])));
/// let index = index_to_vec(strap, BLOCK, Tree(&session))?;
/// let at = |path: &[u8]| block(strap, BLOCK, Tree(&session), Index(&index), BlockPath(path));
///
/// let second = at(&[2])?;
/// assert_eq!((second.kind, second.start), (BLOCK, 4));
/// assert_eq!(second.bytes, production(ROW, [token(7)]));
/// let minutes = at(&[2, 1])?;
/// assert_eq!((minutes.kind, minutes.bytes), (MINUTES, &token(7)[..]));
/// assert_eq!(at(&[3]), Err(Refusal::NoBlock));
/// # Ok::<(), Refusal>(())
/// ```
pub fn block<'a>(
    language: Language,
    root: Kind,
    tree: Tree<'a>,
    index: Index,
    path: BlockPath,
) -> Result<Block<'a>, Refusal> {
    let answer = raw::block(language.0, root.0, tree.0, index.0, path.0);
    accepted(answer.number)?;
    let (start, length) = (answer.start as usize, answer.length as usize);
    Ok(Block { bytes: &tree.0[start..start + length], start, kind: Kind(answer.kind) })
}

/// What a node of a tree is.
#[derive(Clone, Copy, Debug, PartialEq, Eq, Hash)]
pub enum Node {
    /// A production.
    Production {
        /// Its result kind.
        kind: Kind,
        /// Its name among the productions of that kind.
        name: u8,
        /// How many arguments it has.
        arguments: usize,
    },
    /// A token.
    Token {
        /// Its kind.
        kind: Kind,
    },
}

impl Node {
    /// The kind of the node.
    pub const fn kind(self) -> Kind {
        match self {
            Node::Production { kind, .. } | Node::Token { kind } => kind,
        }
    }

    /// The name of the production, if it is one.
    pub const fn name(self) -> Option<u8> {
        match self {
            Node::Production { name, .. } => Some(name),
            Node::Token { .. } => None,
        }
    }

    /// How many arguments it has; a token has none.
    pub const fn arguments(self) -> usize {
        match self {
            Node::Production { arguments, .. } => arguments,
            Node::Token { .. } => 0,
        }
    }
}

/// Tells what stands in a tree, with its index, at a path: a production with its name and how many
/// arguments it has, or a token.
///
/// [`Plan::nodes`](crate::Plan::nodes) tells it of all nodes, without a call for each.
///
/// # Errors
///
/// Refusals: 1 to 4, 14 to 16, 21, 22.
///
/// ```
/// use algebra::write::{production, token};
/// use algebra::{index_to_vec, node, BlockPath, Index, Kind, Language, Node, Tree};
///
/// const BLOCK: Kind = Kind(1);
/// const MINUTES: Kind = Kind(2);
/// const ROW: u8 = 1;
/// let strap = Language(include_bytes!("../../examples/strap/strap.language"));
///
/// let row = production(ROW, [token(5)]);
/// let index = index_to_vec(strap, BLOCK, Tree(&row))?;
/// let at = |path: &[u8]| node(strap, BLOCK, Tree(&row), Index(&index), BlockPath(path));
/// assert_eq!(at(&[])?, Node::Production { kind: BLOCK, name: ROW, arguments: 1 });
/// assert_eq!(at(&[1])?, Node::Token { kind: MINUTES });
/// # Ok::<(), algebra::Refusal>(())
/// ```
pub fn node(
    language: Language,
    root: Kind,
    tree: Tree,
    index: Index,
    path: BlockPath,
) -> Result<Node, Refusal> {
    let answer = raw::node(language.0, root.0, tree.0, index.0, path.0);
    accepted(answer.number)?;
    let (kind, arguments) = (Kind(answer.kind), answer.arguments as usize);
    Ok(match u8::try_from(answer.name) {
        Ok(name) => Node::Production { kind, name, arguments },
        Err(_) => Node::Token { kind },
    })
}
