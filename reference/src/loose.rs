//! Loose plans: each token is coded as two legal values, least and greatest, and the score is a
//! least and a greatest value too.

use crate::field::two_bytes;
use crate::grammar::Grammar;
use crate::language::{read_language, Class, ARGUMENTS};
use crate::outcome::{require, Outcome, Refusal};
use crate::score::{Line, Table, LEAST_SCORE, MOST_SCORE};
use crate::tree::{root_kind, TREE_LEVELS};

/// The bytes of a loose token.
pub const LOOSE_TOKEN: usize = 4;

/// The least and the greatest of some values.
#[derive(Clone, Copy, Debug, Default, PartialEq, Eq)]
pub struct Ends {
    pub least: i64,
    pub greatest: i64,
}

/// What the score of a loose plan answers; a refused one has 0 and 0.
#[derive(Clone, Copy, Debug, PartialEq, Eq)]
pub struct LooseScore {
    pub outcome: Outcome,
    pub ends: Ends,
}

impl Ends {
    /// Adds so many times what lies between other ends; a negative factor exchanges them.
    pub fn add(self, factor: i32, other: Ends) -> Ends {
        let products = [i64::from(factor) * other.least, i64::from(factor) * other.greatest];
        let [one, two] = products;
        Ends { least: self.least + one.min(two), greatest: self.greatest + one.max(two) }
    }

    /// Whether both ends are scores that a node may have.
    pub fn are_scores(&self) -> bool {
        let scores = LEAST_SCORE..=MOST_SCORE;
        scores.contains(&self.least) && scores.contains(&self.greatest)
    }
}

/// The two values of the first loose token in the bytes, and the bytes behind it.
pub fn split_token(bytes: &[u8]) -> Option<([u16; 2], &[u8])> {
    let (token, rest) = bytes.split_first_chunk::<LOOSE_TOKEN>()?;
    let [least_high, least_low, most_high, most_low] = *token;
    Some(([two_bytes(least_high, least_low), two_bytes(most_high, most_low)], rest))
}

/// Reads a loose plan from left to right and refuses one that is not legal.
struct Reader<'a> {
    grammar: &'a Grammar<'a>,
    rest: &'a [u8],
}

impl Reader<'_> {
    /// Reads a plan of a kind with at most so many levels.
    fn read(&mut self, kind: u8, levels: usize) -> Result<(), Refusal> {
        match self.grammar.class(kind) {
            Some(class) => self.read_token(class),
            None => self.read_production(kind, levels),
        }
    }

    /// Reads a token: two legal values, the least not above the greatest.
    fn read_token(&mut self, class: Class) -> Result<(), Refusal> {
        let ([least, greatest], rest) = split_token(self.rest).ok_or(Refusal::Tree)?;
        let legal = class.has(least) && class.has(greatest) && least <= greatest;
        self.rest = rest;
        require(legal, Refusal::Tree)
    }

    /// Reads a production's name and its arguments, if a level is left for it.
    fn read_production(&mut self, kind: u8, levels: usize) -> Result<(), Refusal> {
        require(levels > 0, Refusal::Depth)?;
        let (&name, rest) = self.rest.split_first().ok_or(Refusal::Tree)?;
        let place = self.grammar.place(kind, name).ok_or(Refusal::Tree)?;
        self.rest = rest;
        let mut arguments = self.grammar.production(place).arguments().iter();
        arguments.try_for_each(|&argument| self.read(argument, levels - 1))
    }
}

/// Adds up the ends of a legal loose plan.
struct Scorer<'a> {
    grammar: &'a Grammar<'a>,
    table: &'a Table,
    rest: &'a [u8],
}

impl Scorer<'_> {
    /// The ends of the next plan, which is of the kind.
    fn ends(&mut self, kind: u8) -> Result<Ends, Refusal> {
        if self.grammar.class(kind).is_some() {
            let ([least, greatest], rest) = split_token(self.rest).expect("a legal plan");
            self.rest = rest;
            return Ok(Ends { least: i64::from(least), greatest: i64::from(greatest) });
        }
        let (&name, rest) = self.rest.split_first().expect("a legal plan");
        self.rest = rest;
        let place = self.grammar.place(kind, name).expect("a legal plan");
        self.production_ends(place)
    }

    /// The ends of a production whose arguments stand next, added from the last to the first.
    fn production_ends(&mut self, place: usize) -> Result<Ends, Refusal> {
        let Line { constant, factors } = self.table.lines[place];
        let mut ends = [Ends::default(); ARGUMENTS];
        for (number, &argument) in self.grammar.production(place).arguments().iter().enumerate() {
            ends[number] = self.ends(argument)?;
        }
        let constant = Ends { least: constant.into(), greatest: constant.into() };
        let operands = ends.into_iter().zip(factors).rev();
        let sum = operands.fold(constant, |sum, (ends, factor)| sum.add(factor, ends));
        require(sum.are_scores(), Refusal::Score)?;
        Ok(sum)
    }
}

/// Scores a loose plan of the root kind by a table of the language.
pub fn score_loose(language: &[u8], root: u32, plan: &[u8], table: &[u8]) -> LooseScore {
    match find_ends(language, root, plan, table) {
        Ok(ends) => LooseScore { outcome: Outcome::Accepted(0), ends },
        Err(reason) => LooseScore { outcome: Outcome::Refused(reason), ends: Ends::default() },
    }
}

/// The tests of `score_loose` in order, and then its result.
fn find_ends(language: &[u8], root: u32, plan: &[u8], table: &[u8]) -> Result<Ends, Refusal> {
    let language = read_language(language)?;
    let table = Table::read(&language, table)?;
    let root = root_kind(&language, root)?;
    let grammar = Grammar::new(&language);
    let mut reader = Reader { grammar: &grammar, rest: plan };
    reader.read(root, TREE_LEVELS)?;
    require(reader.rest.is_empty(), Refusal::Tree)?;
    Scorer { grammar: &grammar, table: &table, rest: plan }.ends(root)
}
