//! Loose plans: trees whose tokens are made loose in several ways, and plans settled again.

use super::damage::damage_bytes;
use super::random::Random;
use super::ranges::{edge_value, legal_value, value_between};
use super::tables::{score_case, ScoreCase};
use crate::grammar::Grammar;
use crate::language::{read_language, Class};
use crate::loose::split_token;
use crate::score::Table;
use crate::tree::root_kind;

/// How the tokens of a plan are made loose.
#[derive(Clone, Copy)]
enum Looseness {
    /// Not at all: both values are the token's.
    Settled,
    /// From the lowest to the highest legal value.
    Wide,
    /// Some way, with the token's value at one of the ends.
    Mixed,
    /// The same, with values that are not legal or out of order among them.
    Wild,
}

/// The least and greatest value for a token; one that is not legal stays alone.
fn pair(random: &mut Random, class: &Class, value: u16, looseness: Looseness) -> [u16; 2] {
    let other = legal_value(random, class);
    let mixed = [value.min(other), value.max(other)];
    match (looseness, random.below(12)) {
        _ if !class.has(value) => [value, value],
        (Looseness::Settled, _) => [value, value],
        (Looseness::Wide, _) => [class.low, class.last()],
        (Looseness::Wild, 0) => [mixed[1], mixed[0]],
        (Looseness::Wild, 1) => [value, edge_value(random, class)],
        (Looseness::Wild, 2) => [edge_value(random, class), value],
        (_, 3..=5) => [value, value],
        _ => mixed,
    }
}

/// Makes a tree loose as far as it can be read.
struct Loosener<'a> {
    grammar: &'a Grammar<'a>,
    looseness: Looseness,
    rest: &'a [u8],
    plan: Vec<u8>,
}

impl Loosener<'_> {
    /// Makes the next tree loose, which is of a kind; `None` if it breaks off.
    fn put(&mut self, random: &mut Random, kind: u8) -> Option<()> {
        if let Some(class) = self.grammar.class(kind) {
            let (value, rest) = self.rest.split_first_chunk()?;
            self.rest = rest;
            let pair = pair(random, &class, u16::from_be_bytes(*value), self.looseness);
            self.plan.extend(pair.map(u16::to_be_bytes).concat());
            return Some(());
        }
        let (&name, rest) = self.rest.split_first()?;
        let place = self.grammar.place(kind, name)?;
        self.rest = rest;
        self.plan.push(name);
        let mut arguments = self.grammar.production(place).arguments().iter();
        arguments.try_for_each(|&argument| self.put(random, argument))
    }
}

/// A tree made loose; what cannot be read stays as it is.
fn loosened(random: &mut Random, case: &ScoreCase, looseness: Looseness) -> Vec<u8> {
    let Ok(language) = read_language(&case.language) else { return case.tree.clone() };
    let Ok(root) = root_kind(&language, case.root) else { return case.tree.clone() };
    let grammar = Grammar::new(&language);
    let mut loosener = Loosener { grammar: &grammar, looseness, rest: &case.tree, plan: vec![] };
    loosener.put(random, root);
    let Loosener { rest, mut plan, .. } = loosener;
    plan.extend_from_slice(rest);
    plan
}

/// A fixed plan as a loose one: each value stands twice.
pub fn doubled(case: &ScoreCase) -> Vec<u8> {
    loosened(&mut Random::new(0), case, Looseness::Settled)
}

/// A language, a root, a loose plan (as the tree of the case) and a table.
pub fn loose_case(random: &mut Random) -> ScoreCase {
    let case = score_case(random);
    let looseness = random.pick(&[
        Looseness::Settled,
        Looseness::Wide,
        Looseness::Mixed,
        Looseness::Mixed,
        Looseness::Wild,
    ]);
    let mut tree = loosened(random, &case, looseness);
    if random.percent(6) {
        damage_bytes(random, &mut tree);
    }
    ScoreCase { tree, ..case }
}

/// Which tokens a loose plan is settled to.
#[derive(Clone, Copy, Debug, PartialEq, Eq)]
pub enum Settling {
    /// Legal ones between the two values.
    Any,
    /// Those that make the least score, or the greatest.
    Least,
    Greatest,
}

impl Settling {
    /// What is wanted of an argument that counts with a factor.
    fn below(self, factor: i32) -> Settling {
        match (self, factor < 0) {
            (Settling::Least, true) => Settling::Greatest,
            (Settling::Greatest, true) => Settling::Least,
            _ => self,
        }
    }
}

/// Settles a legal loose plan.
struct Settler<'a> {
    grammar: &'a Grammar<'a>,
    table: &'a Table,
    rest: &'a [u8],
    tree: Vec<u8>,
}

impl Settler<'_> {
    /// Settles the next plan, which is of a kind.
    fn put(&mut self, random: &mut Random, kind: u8, settling: Settling) {
        if let Some(class) = self.grammar.class(kind) {
            let ([least, greatest], rest) = split_token(self.rest).expect("a legal plan");
            self.rest = rest;
            let value = match settling {
                Settling::Any => value_between(random, &class, least, greatest),
                Settling::Least => least,
                Settling::Greatest => greatest,
            };
            return self.tree.extend_from_slice(&value.to_be_bytes());
        }
        let (&name, rest) = self.rest.split_first().expect("a legal plan");
        self.rest = rest;
        self.tree.push(name);
        let place = self.grammar.place(kind, name).expect("a legal plan");
        let arguments = self.grammar.production(place).arguments().iter();
        for (&argument, factor) in arguments.zip(self.table.lines[place].factors) {
            self.put(random, argument, settling.below(factor));
        }
    }
}

/// The fixed plan to which the loose plan of an accepted case is settled.
pub fn settled(random: &mut Random, case: &ScoreCase, settling: Settling) -> ScoreCase {
    let language = read_language(&case.language).expect("an accepted language");
    let table = Table::read(&language, &case.table).expect("an accepted table");
    let grammar = Grammar::new(&language);
    let mut settler = Settler { grammar: &grammar, table: &table, rest: &case.tree, tree: vec![] };
    settler.put(random, case.root as u8, settling);
    ScoreCase { tree: settler.tree, ..case.clone() }
}
