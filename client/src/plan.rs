//! A tree and its index, checked together, and all of its nodes in reading order.

use crate::grammar::Grammar;
use crate::{
    block, edit_to_vec, node, Block, BlockPath, Card, Edited, Index, Kind, Language, NewBlock,
    Node, Refusal, Tree, ENTRY_BYTES, TREE_LEVELS,
};
use std::fmt;
use std::iter::FusedIterator;
use std::ops::Range;

/// A legal tree with its own index, checked together. Nothing is copied.
///
/// ```
/// use algebra::{Index, Kind, Language, Plan, Refusal, Tree};
///
/// const BLOCK: Kind = Kind(1);
/// let club = Language(include_bytes!("../../examples/pyramid/club.language"));
/// let session = Tree(include_bytes!("../../examples/pyramid/session.tree"));
/// let index = Index(include_bytes!("../../examples/pyramid/session.index"));
///
/// let plan = Plan::new(club, BLOCK, session, index)?;
/// assert_eq!(plan.nodes().len(), 17);
/// // Without its last entry it is not the index of this tree.
/// let cut = Index(&index.0[..64]);
/// assert_eq!(Plan::new(club, BLOCK, session, cut).unwrap_err(), Refusal::NotIndexed);
/// # Ok::<(), Refusal>(())
/// ```
#[derive(Clone, Debug, PartialEq, Eq, Hash)]
pub struct Plan<'a> {
    language: Language<'a>,
    root: Kind,
    tree: Tree<'a>,
    index: Index<'a>,
    grammar: Grammar<'a>,
}

impl<'a> Plan<'a> {
    /// Checks a tree of the root kind in a language, and that the index is its own.
    ///
    /// # Errors
    ///
    /// Refusals: 1 to 4, 14 to 16, 22.
    pub fn new(
        language: Language<'a>,
        root: Kind,
        tree: Tree<'a>,
        index: Index<'a>,
    ) -> Result<Plan<'a>, Refusal> {
        block(language, root, tree, index, BlockPath(&[]))?;
        Ok(Plan { language, root, tree, index, grammar: Grammar::of(language) })
    }

    /// The language of the tree.
    pub fn language(&self) -> Language<'a> {
        self.language
    }

    /// The kind of the tree.
    pub fn root(&self) -> Kind {
        self.root
    }

    /// The tree.
    pub fn tree(&self) -> Tree<'a> {
        self.tree
    }

    /// The index of the tree.
    pub fn index(&self) -> Index<'a> {
        self.index
    }

    /// The block at a path, as [`block()`] gives it.
    ///
    /// # Errors
    ///
    /// Refusals: 21.
    pub fn block(&self, path: BlockPath) -> Result<Block<'a>, Refusal> {
        block(self.language, self.root, self.tree, self.index, path)
    }

    /// What stands at a path, as [`node`] tells it.
    ///
    /// # Errors
    ///
    /// Refusals: 21.
    pub fn node(&self, path: BlockPath) -> Result<Node, Refusal> {
        node(self.language, self.root, self.tree, self.index, path)
    }

    /// A new plan with another block at a path, and its index, as [`edit_to_vec`] gives them.
    ///
    /// # Errors
    ///
    /// Refusals: 2 and 3 of the card, 15 and 16 of the block, 21, 22, 25.
    pub fn edit(&self, path: BlockPath, card: Card, block: NewBlock) -> Result<Edited, Refusal> {
        edit_to_vec(self.language, self.root, self.tree, self.index, path, card, block)
    }

    /// All nodes of the tree, tokens too, in reading order: each block before the blocks in it. The
    /// library is not called, and nothing can fail.
    ///
    /// An outline of a session:
    ///
    /// ```
    /// use algebra::write::{production, token};
    /// use algebra::{index_to_vec, Index, Kind, Language, Node, Plan, Tree};
    ///
    /// const BLOCK: Kind = Kind(1);
    /// const ROW: u8 = 1;
    /// const SEQUENCE: u8 = 2;
    /// let strap = Language(include_bytes!("../../examples/strap/strap.language"));
    ///
    /// let session = production(SEQUENCE, [5, 7].map(|minutes| production(ROW, [token(minutes)])));
    /// let index = index_to_vec(strap, BLOCK, Tree(&session))?;
    /// let plan = Plan::new(strap, BLOCK, Tree(&session), Index(&index))?;
    ///
    /// let mut outline = String::new();
    /// for node in plan.nodes() {
    ///     let text = match (node.node(), node.value()) {
    ///         (Node::Production { name: ROW, .. }, _) => "row".to_string(),
    ///         (Node::Production { name: SEQUENCE, .. }, _) => "sequence".to_string(),
    ///         (_, Some(minutes)) => format!("{minutes} minutes"),
    ///         _ => "another word".to_string(),
    ///     };
    ///     outline += &format!("{}{text}\n", "  ".repeat(node.depth()));
    /// }
    /// assert_eq!(outline, "sequence\n  row\n    5 minutes\n  row\n    7 minutes\n");
    ///
    /// // The block in which the cursor stands, behind byte 5: the innermost that holds it.
    /// let around = plan.nodes().filter(|node| node.range().contains(&5)).last();
    /// assert_eq!(around.map(|node| node.path().0.to_vec()), Some(vec![2, 1]));
    /// # Ok::<(), algebra::Refusal>(())
    /// ```
    pub fn nodes(&self) -> Nodes<'_> {
        Nodes { plan: self, place: 0, around: vec![], path: Steps::default() }
    }

    /// Start and length of the node at a place of the index.
    fn entry(&self, place: usize) -> Range<usize> {
        let entry = &self.index.0[ENTRY_BYTES * place..];
        let number = |at: usize| usize::from(u16::from_be_bytes([entry[at], entry[at + 1]]));
        number(0)..number(0) + number(2)
    }
}

/// Argument numbers from the root down, and zeros behind them. A token below the last level is as
/// many steps away as a tree has levels.
#[derive(Clone, Copy, PartialEq, Eq, Hash)]
struct Steps {
    numbers: [u8; TREE_LEVELS],
    length: usize,
}

impl Default for Steps {
    fn default() -> Steps {
        Steps { numbers: [0; TREE_LEVELS], length: 0 }
    }
}

impl Steps {
    /// Goes below a block, before its first argument.
    fn enter(&mut self) {
        self.length += 1;
    }

    /// Goes on to the next argument.
    fn advance(&mut self) {
        self.numbers[self.length - 1] += 1;
    }

    /// Goes back to the block whose arguments these were.
    fn leave(&mut self) {
        self.length -= 1;
        self.numbers[self.length] = 0;
    }

    /// The numbers of the path.
    fn numbers(&self) -> &[u8] {
        &self.numbers[..self.length]
    }
}

/// A node of a plan, and where it stands.
#[derive(Clone, Copy, PartialEq, Eq, Hash)]
pub struct PlanNode<'p> {
    node: Node,
    bytes: &'p [u8],
    start: usize,
    path: Steps,
}

impl<'p> PlanNode<'p> {
    /// What the node is: a production with its name and arguments, or a token.
    pub fn node(&self) -> Node {
        self.node
    }

    /// The kind of the node.
    pub fn kind(&self) -> Kind {
        self.node.kind()
    }

    /// The value of a token; a production has none.
    pub fn value(&self) -> Option<u16> {
        match (self.node, self.bytes) {
            (Node::Token { .. }, &[high, low]) => Some(u16::from_be_bytes([high, low])),
            _ => None,
        }
    }

    /// The bytes of the node, as the caller's tree holds them.
    pub fn bytes(&self) -> &'p [u8] {
        self.bytes
    }

    /// Where the node starts in the tree.
    pub fn start(&self) -> usize {
        self.start
    }

    /// The bytes of the tree that are those of the node, counted from 0.
    pub fn range(&self) -> Range<usize> {
        self.start..self.start + self.bytes.len()
    }

    /// The path to the node, which [`block()`] and [`edit`](crate::edit()) take.
    pub fn path(&self) -> BlockPath<'_> {
        BlockPath(self.path.numbers())
    }

    /// How many blocks the node stands in: 0 for the whole tree.
    pub fn depth(&self) -> usize {
        self.path.length
    }
}

impl fmt::Debug for PlanNode<'_> {
    /// Writes what the node is, its bytes by their places, and its path.
    fn fmt(&self, formatter: &mut fmt::Formatter) -> fmt::Result {
        formatter
            .debug_struct("PlanNode")
            .field("node", &self.node)
            .field("range", &self.range())
            .field("path", &self.path.numbers())
            .finish()
    }
}

/// The nodes of a plan in reading order, which [`Plan::nodes`] gives.
#[derive(Clone)]
pub struct Nodes<'p> {
    plan: &'p Plan<'p>,
    /// The place of the next node in the index.
    place: usize,
    /// For each block around the next node, from the root on, the kinds of the arguments to come.
    around: Vec<&'p [u8]>,
    /// The path to the last argument that was given of the innermost block.
    path: Steps,
}

impl Nodes<'_> {
    /// Goes on to the next node, of which the index has one more, and gives its kind.
    fn step(&mut self) -> Kind {
        while let Some(to_come) = self.around.last_mut() {
            if let Some((&kind, rest)) = to_come.split_first() {
                *to_come = rest;
                self.path.advance();
                return Kind(kind.into());
            }
            self.around.pop();
            self.path.leave();
        }
        self.plan.root
    }
}

impl<'p> Iterator for Nodes<'p> {
    type Item = PlanNode<'p>;

    fn next(&mut self) -> Option<PlanNode<'p>> {
        if self.len() == 0 {
            return None;
        }
        let (kind, range) = (self.step(), self.plan.entry(self.place));
        let (start, path, bytes) = (range.start, self.path, &self.plan.tree.0[range]);
        self.place += 1;
        let node = match self.plan.grammar.arguments(kind, bytes[0]) {
            Some(arguments) => {
                self.around.push(arguments);
                self.path.enter();
                Node::Production { kind, name: bytes[0], arguments: arguments.len() }
            }
            None => Node::Token { kind },
        };
        Some(PlanNode { node, bytes, start, path })
    }

    fn size_hint(&self) -> (usize, Option<usize>) {
        let left = self.plan.index.0.len() / ENTRY_BYTES - self.place;
        (left, Some(left))
    }
}

impl ExactSizeIterator for Nodes<'_> {}

impl FusedIterator for Nodes<'_> {}

impl fmt::Debug for Nodes<'_> {
    /// Writes how many nodes are left.
    fn fmt(&self, formatter: &mut fmt::Formatter) -> fmt::Result {
        formatter.debug_struct("Nodes").field("left", &self.len()).finish_non_exhaustive()
    }
}

impl<'p> IntoIterator for &'p Plan<'p> {
    type Item = PlanNode<'p>;
    type IntoIter = Nodes<'p>;

    fn into_iter(self) -> Nodes<'p> {
        self.nodes()
    }
}
