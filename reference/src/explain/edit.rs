//! Faults of an index, of a path to a block, and of an edit.

use super::nodes::{arguments, path_to, place_name, Node, Reader};
use super::{card, translation, tree, Fault, Piece};
use crate::field::two_bytes;
use crate::grammar::Grammar;
use crate::index::{ENTRY_BYTES, INDEXED_BYTES};
use crate::language::{bit, Language};
use crate::outcome::Refusal;
use crate::tree::TREE_LEVELS;

/// A tree with its index, and the card of the one who looks at it, if they are given.
#[derive(Clone, Copy, Debug)]
pub struct Indexed<'a> {
    pub language: &'a [u8],
    pub root: u32,
    pub tree: &'a [u8],
    pub index: Option<&'a [u8]>,
    pub card: Option<&'a [u8]>,
}

/// A tree that was read: its language, and its nodes in reading order.
struct Read {
    language: Language,
    nodes: Vec<Node>,
}

impl Indexed<'_> {
    /// Looks for a fault of a tree, and of the length of an output for its index.
    pub fn check_index(&self, output: usize) -> Result<(), Fault> {
        let nodes = self.read()?.nodes;
        fits("index", ENTRY_BYTES * nodes.len(), output)
    }

    /// Looks for a fault of a tree, its index and a path.
    pub fn check_block(&self, path: &[u8]) -> Result<(), Fault> {
        self.find(&self.read()?, path).map(|_| ())
    }

    /// Looks for a fault of an edit, with outputs of so many bytes each.
    pub fn check_edit(&self, path: &[u8], block: &[u8], output: usize) -> Result<(), Fault> {
        let read = self.read()?;
        let old = &read.nodes[self.find(&read, path)?];
        let grammar = Grammar::new(&read.language);
        let reader = Reader::new(&grammar, "block", block, 1);
        let new = reader.nodes(old.kind, TREE_LEVELS - path.len())?;
        let length = self.tree.len() - old.length + block.len();
        check_length("new plan", length)?;
        fits("plan", length, output)?;
        let inside = old.start..old.start + old.length;
        let outside = read.nodes.iter().filter(|node| !inside.contains(&node.start));
        fits("index", ENTRY_BYTES * (outside.count() + new.len()), output)
    }

    /// Reads the tree, which must be legal and short enough, and compares its index.
    fn read(&self) -> Result<Read, Fault> {
        if let Some(card) = self.card {
            card::check_with_language(self.language, card)?;
        }
        tree::check(self.language, self.root, self.tree)?;
        check_length("tree", self.tree.len())?;
        let language = translation::decoded(&Piece::whole("language", self.language))?;
        let grammar = Grammar::new(&language);
        let reader = Reader::new(&grammar, "tree", self.tree, 1);
        let nodes = reader.nodes(self.root as u8, TREE_LEVELS)?;
        if let Some(index) = self.index {
            check_index(&nodes, index)?;
        }
        Ok(Read { language, nodes })
    }

    /// The place of the node to which a path leads.
    fn find(&self, read: &Read, path: &[u8]) -> Result<usize, Fault> {
        let mut place = 0;
        self.check_shown(&read.nodes[place], &[])?;
        for (at, &number) in path.iter().enumerate() {
            let all = arguments(&read.nodes, place);
            let next = usize::from(number).checked_sub(1).and_then(|number| all.get(number));
            place = *next.ok_or_else(|| self.no_block(read, place, path, at, all.len()))?;
            self.check_shown(&read.nodes[place], &path[..=at])?;
        }
        Ok(place)
    }

    /// The node to which a path leads must be shown by the card, if there is one.
    fn check_shown(&self, node: &Node, path: &[u8]) -> Result<(), Fault> {
        match self.card {
            Some(card) if card::kinds(card) & bit(node.kind) == 0 => {
                let what = format!("the block there is of kind {}, which is hidden", node.kind);
                let piece = Piece::whole("path", path).named(behind(path));
                Err(piece.fault_somewhere(Refusal::Hidden, what))
            }
            _ => Ok(()),
        }
    }

    /// The fault of the path number at a place: the node that has so many arguments and not this.
    fn no_block(&self, read: &Read, node: usize, path: &[u8], at: usize, count: usize) -> Fault {
        let (Node { kind, start, .. }, number) = (read.nodes[node], path[at]);
        let is_class = read.language.class_kinds() & bit(kind) != 0;
        let what = match (is_class, number) {
            (_, 0) => "the number is 0, and arguments count from 1".to_string(),
            (true, _) => format!("a token of class {kind} has no argument {number}"),
            (false, _) => {
                let name = self.tree[start];
                format!("production {kind}.{name} has no argument {number}: it has {count}")
            }
        };
        Piece::whole("path", path).named(behind(&path[..at])).fault(Refusal::Path, at, what)
    }
}

/// What stands before a number of a path.
fn behind(path: &[u8]) -> String {
    let numbers: Vec<String> = path.iter().map(u8::to_string).collect();
    match path {
        [] => "at the root".to_string(),
        _ => format!("behind {}", numbers.join(".")),
    }
}

/// A tree of so many bytes must be short enough for an index.
fn check_length(name: &'static str, length: usize) -> Result<(), Fault> {
    if length <= INDEXED_BYTES {
        return Ok(());
    }
    let what = format!("it has {length} bytes, more than {INDEXED_BYTES}");
    Err(Piece::whole(name, &[]).fault_somewhere(Refusal::Index, what))
}

/// A result of so many bytes must fit the output.
fn fits(name: &str, length: usize, output: usize) -> Result<(), Fault> {
    if length <= output {
        return Ok(());
    }
    let what = format!("its length is {output}, and that of the {name} {length}");
    Err(Piece::whole("output", &[]).fault_somewhere(Refusal::Output, what))
}

/// Compares an index with the nodes of its tree, entry by entry.
fn check_index(nodes: &[Node], index: &[u8]) -> Result<(), Fault> {
    let entries = index.chunks(ENTRY_BYTES);
    let wrong = entries.zip(nodes).position(|(entry, node)| {
        entry.len() < ENTRY_BYTES
            || usize::from(two_bytes(entry[0], entry[1])) != node.start
            || usize::from(two_bytes(entry[2], entry[3])) != node.length
    });
    if let Some(entry) = wrong {
        return Err(wrong_entry(nodes, index, entry));
    }
    let own = ENTRY_BYTES * nodes.len();
    if index.len() == own {
        return Ok(());
    }
    let what = format!("it has {} bytes, and that of the tree has {own}", index.len());
    Err(Piece::whole("index", index).fault(Refusal::Index, index.len().min(own), what))
}

/// The fault of an entry that is not that of its node.
fn wrong_entry(nodes: &[Node], index: &[u8], entry: usize) -> Fault {
    let (at, node) = (ENTRY_BYTES * entry, &nodes[entry]);
    let told = match index[at..] {
        [a, b, c, d, ..] => {
            format!("it has start {}, length {}", two_bytes(a, b), two_bytes(c, d))
        }
        _ => "the entry is cut off".to_string(),
    };
    let what = format!("{told}; the node has start {}, length {}", node.start, node.length);
    let place = place_name(&path_to(nodes, entry));
    Piece::whole("index", index).named(place).fault(Refusal::Index, at, what)
}
