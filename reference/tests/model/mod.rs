//! Languages, trees and translations decoded in the plainest way, for definitions that the reference
//! is compared with. Only what has been accepted is decoded.
#![allow(dead_code)]

use std::collections::BTreeMap;

/// The argument kinds of each production, by result and name; a class has none of these.
pub struct Grammar {
    pub classes: Vec<u8>,
    pub productions: BTreeMap<(u8, u8), Vec<u8>>,
}

/// A decoded tree: each node with its kind.
#[derive(Clone, Debug, PartialEq, Eq)]
pub enum Tree {
    Token { kind: u8, value: u16 },
    Production { kind: u8, name: u8, arguments: Vec<Tree> },
}

/// The tags and contents of fields one after the other.
pub fn fields(mut bytes: &[u8]) -> Vec<(u8, &[u8])> {
    let mut fields = Vec::new();
    while let [tag, high, low, rest @ ..] = bytes {
        let (contents, behind) = rest.split_at(usize::from(*high) * 256 + usize::from(*low));
        fields.push((*tag, contents));
        bytes = behind;
    }
    fields
}

impl Grammar {
    /// Decodes a language.
    pub fn new(language: &[u8]) -> Grammar {
        let mut grammar = Grammar { classes: vec![], productions: BTreeMap::new() };
        for (tag, contents) in fields(language) {
            match tag {
                0x11 => grammar.classes.push(contents[0]),
                _ => drop(
                    grammar.productions.insert((contents[0], contents[1]), contents[2..].to_vec()),
                ),
            }
        }
        grammar
    }

    /// Decodes the first tree of a kind, and gives the bytes behind it.
    fn split<'a>(&self, kind: u8, tree: &'a [u8]) -> (Tree, &'a [u8]) {
        if self.classes.contains(&kind) {
            let value = u16::from_be_bytes([tree[0], tree[1]]);
            return (Tree::Token { kind, value }, &tree[2..]);
        }
        let (name, mut rest) = (tree[0], &tree[1..]);
        let mut arguments = Vec::new();
        for &kind in &self.productions[&(kind, name)] {
            let (argument, behind) = self.split(kind, rest);
            arguments.push(argument);
            rest = behind;
        }
        (Tree::Production { kind, name, arguments }, rest)
    }

    /// Decodes a whole tree of a kind.
    pub fn tree(&self, kind: u32, tree: &[u8]) -> Tree {
        let (tree, rest) = self.split(kind as u8, tree);
        assert!(rest.is_empty());
        tree
    }
}

impl Tree {
    /// The kind of the root.
    pub fn kind(&self) -> u8 {
        match self {
            Tree::Token { kind, .. } | Tree::Production { kind, .. } => *kind,
        }
    }

    /// The arguments; a token has none.
    pub fn arguments(&self) -> &[Tree] {
        match self {
            Tree::Token { .. } => &[],
            Tree::Production { arguments, .. } => arguments,
        }
    }

    /// The bytes.
    pub fn bytes(&self) -> Vec<u8> {
        match self {
            Tree::Token { value, .. } => value.to_be_bytes().to_vec(),
            Tree::Production { name, arguments, .. } => {
                [vec![*name], arguments.iter().flat_map(Tree::bytes).collect()].concat()
            }
        }
    }
}

/// Appends the nodes of a tree that starts at a place, in reading order: where each starts and ends;
/// gives the end of the tree.
fn put_spans(tree: &Tree, start: usize, list: &mut Vec<(usize, usize)>) -> usize {
    let place = list.len();
    list.push((start, start));
    let end = match tree {
        Tree::Token { .. } => start + 2,
        Tree::Production { arguments, .. } => {
            arguments.iter().fold(start + 1, |place, tree| put_spans(tree, place, list))
        }
    };
    list[place].1 = end;
    end
}

/// The index of a tree by its definition.
pub fn own_index(tree: &Tree) -> Vec<u8> {
    let mut spans = Vec::new();
    put_spans(tree, 0, &mut spans);
    let numbers = spans.into_iter().flat_map(|(start, end)| [start, end - start]);
    numbers.flat_map(|number| (number as u16).to_be_bytes()).collect()
}

/// A decoded code; arguments are numbered from 1.
#[derive(Clone, Debug, PartialEq, Eq)]
pub enum Code {
    Token(u16),
    Argument(usize),
    Production { kind: u8, name: u8, arguments: Vec<Code> },
}

/// A decoded translation, with the bytes of its languages.
pub struct Translation {
    pub source: Grammar,
    pub target: Grammar,
    pub source_bytes: Vec<u8>,
    pub target_bytes: Vec<u8>,
    pub mapping: BTreeMap<u8, u8>,
    pub clauses: BTreeMap<(u8, u8), Code>,
}

impl Grammar {
    /// Decodes the first code of a kind, and gives the bytes behind it.
    fn split_code<'a>(&self, kind: u8, code: &'a [u8]) -> (Code, &'a [u8]) {
        match code {
            [2, high, low, rest @ ..] => (Code::Token(u16::from_be_bytes([*high, *low])), rest),
            [3, number, rest @ ..] => (Code::Argument(usize::from(*number)), rest),
            _ => {
                let (name, mut rest) = (code[1], &code[2..]);
                let mut arguments = Vec::new();
                for &kind in &self.productions[&(kind, name)] {
                    let (argument, behind) = self.split_code(kind, rest);
                    arguments.push(argument);
                    rest = behind;
                }
                (Code::Production { kind, name, arguments }, rest)
            }
        }
    }
}

impl Translation {
    /// Decodes a translation.
    pub fn new(translation: &[u8]) -> Translation {
        let fields = fields(translation);
        let (source_bytes, target_bytes) = (fields[0].1.to_vec(), fields[1].1.to_vec());
        let (source, target) = (Grammar::new(&source_bytes), Grammar::new(&target_bytes));
        let body = &fields[2..];
        let mappings = body.iter().filter(|(tag, _)| *tag == 0x22);
        let mapping: BTreeMap<u8, u8> = mappings.map(|(_, kinds)| (kinds[0], kinds[1])).collect();
        let clauses = body.iter().filter(|(tag, _)| *tag == 0x23).map(|(_, contents)| {
            let (code, _) = target.split_code(mapping[&contents[0]], &contents[2..]);
            ((contents[0], contents[1]), code)
        });
        let clauses = clauses.collect();
        Translation { source, target, source_bytes, target_bytes, mapping, clauses }
    }
}
