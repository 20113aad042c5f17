//! Faults of loose plans, and of their scores.

use super::nodes::{place_name, token_values, Node, Reader};
use super::{score, tree, Fault, Piece};
use crate::grammar::Grammar;
use crate::loose::Ends;
use crate::outcome::Refusal;
use crate::score::Table;
use crate::tree::TREE_LEVELS;
use std::slice::Iter;

/// A loose plan has so many values for a token.
const VALUES: usize = 2;

/// Looks for a fault of a language, a load table, a root and a loose plan, and of its scores.
pub fn check(bytes: &[u8], root: u32, plan: &[u8], table: &[u8]) -> Result<(), Fault> {
    let (language, table) = score::language_and_table(bytes, table)?;
    let root = tree::known_root(&language, "language", root)?;
    let grammar = Grammar::new(&language);
    let nodes = Reader::new(&grammar, "plan", plan, VALUES).nodes(root, TREE_LEVELS)?;
    let mut scorer = Scorer { grammar: &grammar, table: &table, plan, path: vec![] };
    scorer.ends(&mut nodes.iter()).map(|_| ())
}

/// Adds up the scores of a legal loose plan and knows the path to each node.
struct Scorer<'a> {
    grammar: &'a Grammar<'a>,
    table: &'a Table,
    plan: &'a [u8],
    path: Vec<usize>,
}

impl Scorer<'_> {
    /// The least and greatest score of the next node, which must be in range.
    fn ends(&mut self, nodes: &mut Iter<Node>) -> Result<Ends, Fault> {
        let node = nodes.next().expect("a legal plan");
        if self.grammar.class(node.kind).is_some() {
            let values = token_values(self.plan, node.start, VALUES);
            return Ok(Ends { least: values[0].into(), greatest: values[1].into() });
        }
        let place = self.grammar.place(node.kind, self.plan[node.start]).expect("a legal plan");
        let line = self.table.lines[place];
        let constant = i64::from(line.constant);
        let mut ends = Ends { least: constant, greatest: constant };
        for number in 0..self.grammar.production(place).arguments().len() {
            self.path.push(number + 1);
            ends = ends.add(line.factors[number], self.ends(nodes)?);
            self.path.pop();
        }
        self.in_range(node, ends)
    }

    /// The scores of a production, both of them in range.
    fn in_range(&self, node: &Node, ends: Ends) -> Result<Ends, Fault> {
        if ends.are_scores() {
            return Ok(ends);
        }
        let (Ends { least, greatest }, name) = (ends, self.plan[node.start]);
        let what = format!("production {}.{name} scores {least} to {greatest} here", node.kind);
        let piece = Piece::whole("plan", self.plan).named(place_name(&self.path));
        Err(piece.fault(Refusal::Score, node.start, what))
    }
}
