//! Trees and loose plans read node by node, and the first place at which one is at fault.

use super::{Fault, Piece};
use crate::field::two_bytes;
use crate::grammar::Grammar;
use crate::language::Class;
use crate::outcome::Refusal;
use crate::tree::TREE_LEVELS;

/// A node of a tree, in reading order.
#[derive(Clone, Copy, Debug, PartialEq, Eq)]
pub struct Node {
    pub kind: u8,
    /// Where the node starts.
    pub start: usize,
    /// Its bytes, with those of its arguments.
    pub length: usize,
    /// How many argument numbers lead to it.
    pub depth: usize,
}

/// Bytes that are read from left to right as a tree, with the path to the node that is read.
pub struct Reader<'a> {
    grammar: &'a Grammar<'a>,
    /// What the bytes are called.
    input: &'static str,
    bytes: &'a [u8],
    /// How many values stand for a token, in order: one in a tree, two in a loose plan.
    values: usize,
    at: usize,
    path: Vec<usize>,
    /// The nodes that were read, where they are kept.
    nodes: Option<Vec<Node>>,
}

/// What the node at a path is called.
pub fn place_name(path: &[usize]) -> String {
    let numbers: Vec<String> = path.iter().map(usize::to_string).collect();
    match path {
        [] => "the root".to_string(),
        _ => format!("path {}", numbers.join(".")),
    }
}

/// The places of a node's arguments among the nodes of a tree.
pub fn arguments(nodes: &[Node], place: usize) -> Vec<usize> {
    let depth = nodes[place].depth;
    let behind = nodes.iter().enumerate().skip(place + 1);
    let within = behind.take_while(|(_, node)| node.depth > depth);
    within.filter(|(_, node)| node.depth == depth + 1).map(|(place, _)| place).collect()
}

/// The path to the node at a place, found from the node back to the root.
pub fn path_to(nodes: &[Node], place: usize) -> Vec<usize> {
    let mut depth = nodes[place].depth;
    let mut path = vec![0; depth];
    for node in nodes[..=place].iter().rev() {
        depth = depth.min(node.depth);
        if node.depth == depth && depth > 0 {
            path[depth - 1] += 1;
        }
    }
    path
}

/// The values of the token at a place, as many of the number that are there whole.
pub fn token_values(bytes: &[u8], at: usize, number: usize) -> Vec<u16> {
    let token = &bytes[at..bytes.len().min(at + 2 * number)];
    token.chunks_exact(2).map(|pair| two_bytes(pair[0], pair[1])).collect()
}

/// Looks for the first fault of bytes as a tree of a kind.
pub fn check_tree(grammar: &Grammar, kind: u8, tree: &[u8]) -> Result<(), Fault> {
    Reader::new(grammar, "tree", tree, 1).read_whole(kind, TREE_LEVELS)
}

impl<'a> Reader<'a> {
    /// A reader at the start of bytes that are called by a name, with so many values for a token.
    pub fn new(
        grammar: &'a Grammar<'a>,
        input: &'static str,
        bytes: &'a [u8],
        values: usize,
    ) -> Reader<'a> {
        Reader { grammar, input, bytes, values, at: 0, path: vec![], nodes: None }
    }

    /// The nodes of a tree of a kind that has at most so many levels, or the first fault.
    pub fn nodes(mut self, kind: u8, levels: usize) -> Result<Vec<Node>, Fault> {
        self.nodes = Some(vec![]);
        self.read_whole(kind, levels)?;
        Ok(self.nodes.unwrap_or_default())
    }

    /// Reads a tree of a kind that has at most so many levels, behind which nothing stands.
    fn read_whole(&mut self, kind: u8, levels: usize) -> Result<(), Fault> {
        self.read(kind, levels)?;
        match self.bytes.len() - self.at {
            0 => Ok(()),
            left => {
                let what = format!("more bytes follow the {}: {left}", self.input);
                Err(self.piece().fault(Refusal::Tree, self.at, what))
            }
        }
    }

    /// Reads a tree of a kind, with so many levels left.
    fn read(&mut self, kind: u8, levels: usize) -> Result<(), Fault> {
        let (start, depth) = (self.at, self.path.len());
        let node = Node { kind, start, length: 0, depth };
        let place = self.nodes.as_mut().map(|nodes| {
            nodes.push(node);
            nodes.len() - 1
        });
        match self.grammar.class(kind) {
            Some(class) => self.read_token(class)?,
            None => self.read_production(kind, levels)?,
        }
        if let (Some(nodes), Some(place)) = (&mut self.nodes, place) {
            nodes[place].length = self.at - start;
        }
        Ok(())
    }

    /// Reads a token: legal values in order.
    fn read_token(&mut self, class: Class) -> Result<(), Fault> {
        let (kind, values) = (class.kind, token_values(self.bytes, self.at, self.values));
        if values.len() < self.values {
            let what = format!("the {} ends in a token of class {kind}", self.input);
            return self.fault(Refusal::Tree, what);
        }
        if let Some(value) = values.iter().find(|value| !class.has(**value)) {
            let what = format!("the token {value} is not in class {kind}: {}", class.range());
            return self.fault(Refusal::Tree, what);
        }
        let (least, greatest) = (values[0], values[self.values - 1]);
        if least > greatest {
            let what = format!("the least value, {least}, is above the greatest, {greatest}");
            return self.fault(Refusal::Tree, what);
        }
        self.at += 2 * self.values;
        Ok(())
    }

    /// Reads a production and its arguments, if a level is left for it.
    fn read_production(&mut self, kind: u8, levels: usize) -> Result<(), Fault> {
        if levels == 0 {
            let what = format!("a block at level {} is over {TREE_LEVELS}", TREE_LEVELS + 1);
            return self.fault(Refusal::Depth, what);
        }
        let Some(&name) = self.bytes.get(self.at) else {
            let what = format!("the {} ends where kind {kind} is needed", self.input);
            return self.fault(Refusal::Tree, what);
        };
        let Some(place) = self.grammar.place(kind, name) else {
            return self.fault(Refusal::Tree, self.grammar.no_production(kind, name.into()));
        };
        self.at += 1;
        self.read_arguments(self.grammar.production(place).arguments(), levels - 1)
    }

    /// Reads arguments, each with its number at the end of the path.
    fn read_arguments(&mut self, arguments: &[u8], levels: usize) -> Result<(), Fault> {
        for (place, &kind) in arguments.iter().enumerate() {
            self.path.push(place + 1);
            self.read(kind, levels)?;
            self.path.pop();
        }
        Ok(())
    }

    /// The bytes that are read, by their name.
    fn piece(&self) -> Piece<'a> {
        Piece::whole(self.input, self.bytes)
    }

    /// A fault at the node that is read.
    fn fault(&self, reason: Refusal, what: String) -> Result<(), Fault> {
        Err(self.piece().named(place_name(&self.path)).fault(reason, self.at, what))
    }
}

#[cfg(test)]
mod tests {
    use super::*;
    use crate::files::{class, production};
    use crate::language::read_language;

    #[test]
    fn nodes_know_their_arguments_and_paths() {
        let file = [class(2, 1, 240), production(1, 1, &[2]), production(1, 2, &[1, 1])].concat();
        let language = read_language(&file).expect("a language");
        let (grammar, bytes) = (Grammar::new(&language), [2, 1, 0, 5, 2, 1, 0, 6, 1, 0, 7]);
        let read = |levels| Reader::new(&grammar, "tree", &bytes, 1).nodes(1, levels);
        let nodes = read(3).expect("a legal tree");
        let spans: Vec<_> = nodes.iter().map(|node| (node.start, node.length)).collect();
        let rows = [(5, 3), (6, 2), (8, 3), (9, 2)];
        assert_eq!(spans, [&[(0, 11), (1, 3), (2, 2), (4, 7)][..], &rows].concat());
        assert_eq!((arguments(&nodes, 0), arguments(&nodes, 3)), (vec![1, 3], vec![4, 6]));
        assert_eq!(arguments(&nodes, 2), []);
        assert_eq!((path_to(&nodes, 0), path_to(&nodes, 7)), (vec![], vec![2, 2, 1]));
        assert_eq!((path_to(&nodes, 3), path_to(&nodes, 4)), (vec![2], vec![2, 1]));
        assert_eq!(read(2).map_err(|fault| fault.reason), Err(Refusal::Depth));
    }
}
