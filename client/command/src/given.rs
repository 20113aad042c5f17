//! What an accepted operation gives, and how it is printed and written.

use crate::output::hexadecimal_lines;
use algebra::{Block, Edited, Kind, LooseScore, Node, Ran};
use std::fmt;

/// What an accepted operation gives.
pub enum Given {
    /// A result in bytes; a check has none.
    Bytes(Vec<u8>),
    /// A result that is text.
    Text(Vec<u8>),
    /// A score.
    Score(i64),
    /// The least and the greatest score of a loose plan.
    Scores(LooseScore),
    /// A block of a tree.
    Block { kind: Kind, start: usize, bytes: Vec<u8> },
    /// What stands at a path.
    Node(Node),
    /// A plan that was edited, with its index.
    Edited(Edited),
    /// The result of a run, with its cost.
    Ran(Ran),
    /// A translation or a language, with the pack that was reduced for it.
    Reduced { result: Vec<u8>, pack: Vec<u8> },
    /// A source tree that a search found, and the least number of levels at which there is one.
    Found { tree: Vec<u8>, levels: u32 },
}

/// What stands behind the word 'accepted'.
#[derive(Clone, Copy)]
pub enum Figure {
    /// A length or a score.
    One(i64),
    /// A least and a greatest score.
    Between(LooseScore),
}

impl fmt::Display for Figure {
    fn fmt(&self, formatter: &mut fmt::Formatter) -> fmt::Result {
        match self {
            Figure::One(figure) => write!(formatter, "{figure}"),
            Figure::Between(LooseScore { least, greatest }) => {
                write!(formatter, "{least} to {greatest}")
            }
        }
    }
}

impl From<Block<'_>> for Given {
    fn from(block: Block) -> Given {
        let Block { bytes, start, kind } = block;
        Given::Block { kind, start, bytes: bytes.to_vec() }
    }
}

impl Given {
    /// What a check gives.
    pub fn nothing() -> Given {
        Given::Bytes(vec![])
    }

    /// The figure of the first line: a score or two, or the length of the result.
    pub fn figure(&self) -> Figure {
        match self {
            Given::Score(score) => Figure::One(*score),
            Given::Scores(scores) => Figure::Between(*scores),
            _ => Figure::One(self.bytes().len() as i64),
        }
    }

    /// The lines between the first one and the result.
    pub fn figures(&self) -> String {
        match self {
            Given::Block { kind, start, .. } => format!("kind {kind}, start {start}\n"),
            Given::Node(Node::Production { kind, name, arguments }) => {
                format!("kind {kind}, name {name}, arguments {arguments}\n")
            }
            Given::Node(Node::Token { kind }) => format!("kind {kind}, token\n"),
            Given::Edited(edited) => format!("index {}\n", edited.index.len()),
            Given::Ran(ran) => format!("cost {}\n", ran.cost),
            Given::Found { levels, .. } => format!("levels {levels}\n"),
            _ => String::new(),
        }
    }

    /// The result as it is printed.
    pub fn shown(&self) -> String {
        match self {
            Given::Text(text) => format!("{}\n", String::from_utf8_lossy(text)),
            _ => hexadecimal_lines(self.bytes()),
        }
    }

    /// The result as it is written to a file; text is written as it is.
    pub fn written(&self, hexadecimal: bool) -> Vec<u8> {
        match self {
            Given::Text(text) => text.clone(),
            _ => in_file(self.bytes(), hexadecimal),
        }
    }

    /// What goes to a second file, as it is written: the index of an edited plan, or the pack of a
    /// result.
    pub fn written_besides(&self, hexadecimal: bool) -> Option<Vec<u8>> {
        match self {
            Given::Edited(edited) => Some(in_file(&edited.index, hexadecimal)),
            Given::Reduced { pack, .. } => Some(in_file(pack, hexadecimal)),
            _ => None,
        }
    }

    /// The bytes of the result.
    pub fn bytes(&self) -> &[u8] {
        match self {
            Given::Bytes(bytes) | Given::Text(bytes) | Given::Block { bytes, .. } => bytes,
            Given::Edited(edited) => &edited.plan,
            Given::Ran(ran) => &ran.tree,
            Given::Reduced { result: bytes, .. } | Given::Found { tree: bytes, .. } => bytes,
            Given::Score(_) | Given::Scores(_) | Given::Node(_) => &[],
        }
    }
}

/// Bytes as a file has them: as they are, or as text.
fn in_file(bytes: &[u8], hexadecimal: bool) -> Vec<u8> {
    match hexadecimal {
        true => hexadecimal_lines(bytes).into_bytes(),
        false => bytes.to_vec(),
    }
}
