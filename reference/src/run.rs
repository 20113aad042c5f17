//! Running a translation on a tree, by a number of the root: check and measure in one pass, then write.
//! Measured are the length of the result and the cost, how many clauses are applied.

use crate::body::Body;
use crate::code::{symbols, Symbol};
use crate::grammar::Grammar;
use crate::language::{Production, ARGUMENTS, KINDS};
use crate::outcome::{require, Outcome, Refusal};
use crate::translation::{read_translation, Translation};
use crate::tree::{read_tree, root_kind, tree_end, Tally};

/// The clauses of a translation, ready to be run. Numbers are taken by their ranks: the places that
/// they have among those of a kind.
struct Program {
    /// For each place of the source its first clause, that of number 0.
    firsts: Vec<u32>,
    clauses: Vec<Shape>,
    symbols: Vec<Symbol>,
    /// How many numbers each kind has.
    counts: [usize; KINDS],
}

/// What a clause's code writes itself, how often it uses each argument, and its symbols.
struct Shape {
    own: u64,
    /// How often it uses each argument, by all numbers together.
    uses: [u64; ARGUMENTS],
    /// The argument and the rank of each use that may be of another number than 0.
    ranked: Vec<(u8, u8)>,
    first: usize,
    end: usize,
}

/// The symbol with the rank of an argument's number in place of the number.
fn ranked(body: &Body, production: &Production, symbol: Symbol) -> Symbol {
    let Symbol::Argument(argument, number) = symbol else { return symbol };
    let rank = body.rank(production.arguments()[argument as usize], number);
    Symbol::Argument(argument, rank.expect("a well-formed code") as u8)
}

impl Program {
    /// Prepares the clauses of a well-formed translation.
    fn new(translation: &Translation) -> Program {
        let body = &translation.body;
        let mut program = Program {
            firsts: Vec::with_capacity(translation.source.productions.len()),
            clauses: Vec::with_capacity(body.clauses.len()),
            symbols: Vec::new(),
            counts: std::array::from_fn(|kind| 1 + body.others_of(kind as u8).len()),
        };
        for ((production, number, _), clause) in translation.due_clauses().zip(body.clauses.iter())
        {
            if number == 0 {
                program.firsts.push(program.clauses.len() as u32);
            }
            let first = program.symbols.len();
            let symbols = symbols(clause.code).map(|symbol| ranked(body, production, symbol));
            program.symbols.extend(symbols);
            let shape = Shape::new(&program.symbols, first, body.is_plain());
            program.clauses.push(shape);
        }
        program
    }

    /// The clause at a place by a rank.
    #[inline]
    fn clause(&self, place: usize, rank: usize) -> &Shape {
        &self.clauses[self.firsts[place] as usize + rank]
    }

    /// The symbols of the clause at a place by a rank.
    #[inline]
    fn code(&self, place: usize, rank: usize) -> &[Symbol] {
        let shape = self.clause(place, rank);
        &self.symbols[shape.first..shape.end]
    }
}

impl Shape {
    /// Measures the code that stands from `first` to the end of the symbols.
    fn new(symbols: &[Symbol], first: usize, plain: bool) -> Shape {
        let (uses, ranked) = ([0; ARGUMENTS], vec![]);
        let mut shape = Shape { own: 0, uses, ranked, first, end: symbols.len() };
        for symbol in &symbols[first..] {
            match symbol {
                Symbol::Production(_) => shape.own += 1,
                Symbol::Token(_) => shape.own += 2,
                Symbol::Argument(argument, rank) => {
                    shape.uses[*argument as usize] += 1;
                    shape.ranked.extend((!plain).then_some((*argument, *rank)));
                }
            }
        }
        shape
    }
}

/// The most that a cost is said to be; a higher one is said to be this.
const MOST_COST: u64 = u32::MAX as u64;

/// What a run answers; a refused one has cost 0.
#[derive(Clone, Copy, Debug, PartialEq, Eq)]
pub struct Run {
    pub outcome: Outcome,
    pub cost: u32,
}

impl Run {
    /// The number of the answer.
    pub fn number(self) -> u32 {
        self.outcome.number()
    }

    /// The length of the result, 0 for a refusal.
    pub fn length(self) -> u64 {
        self.outcome.length()
    }
}

/// The length of a result, and how many clauses are applied for it, each use of an argument anew.
#[derive(Clone, Copy, Debug, Default, PartialEq, Eq)]
struct Measure {
    length: u64,
    clauses: u64,
}

impl Measure {
    /// Adds so many bytes, so many times.
    #[inline]
    fn add_bytes(&mut self, bytes: u64, times: u64) {
        self.length = self.length.saturating_add(bytes.saturating_mul(times));
    }

    /// Adds a clause that writes so many bytes itself, so many times.
    #[inline]
    fn add_clause(&mut self, bytes: u64, times: u64) {
        self.add_bytes(bytes, times);
        self.clauses = self.clauses.saturating_add(times);
    }
}

/// Adds up length and clauses where number 0 is the only one; a node's weight is how often its run is
/// written.
///
/// The sum saturates. It is exact below that: a run is never empty, so a saturated weight
/// always shows in the length.
struct Length<'a> {
    program: &'a Program,
    measure: Measure,
}

impl Tally for Length<'_> {
    type Weight = u64;

    #[inline]
    fn token(&mut self, _: u8, _: u16, weight: u64) {
        self.measure.add_bytes(2, weight);
    }

    #[inline]
    fn production(&mut self, place: usize, weight: u64) {
        self.measure.add_clause(self.program.clause(place, 0).own, weight);
    }

    #[inline]
    fn argument(&mut self, place: usize, number: usize, weight: u64) -> u64 {
        weight.saturating_mul(self.program.clause(place, 0).uses[number])
    }
}

/// Adds up length and clauses where there are other numbers. A node has a weight for each rank
/// of its kind, how often its run by it is written; those of the nodes around it stand in a row.
struct RankedLength<'a> {
    grammar: &'a Grammar<'a>,
    program: &'a Program,
    weights: Vec<u64>,
    measure: Measure,
}

impl RankedLength<'_> {
    /// The weights of a node of a kind, which start at a place.
    fn weights(&self, kind: u8, start: usize) -> &[u64] {
        &self.weights[start..start + self.program.counts[kind as usize]]
    }
}

impl Tally for RankedLength<'_> {
    /// Where the weights of the node start.
    type Weight = usize;

    fn token(&mut self, kind: u8, _: u16, start: usize) {
        let times = self.weights(kind, start).iter().fold(0u64, |sum, &w| sum.saturating_add(w));
        self.measure.add_bytes(2, times);
    }

    fn production(&mut self, place: usize, start: usize) {
        let kind = self.grammar.production(place).result;
        for rank in 0..self.program.counts[kind as usize] {
            let own = self.program.clause(place, rank).own;
            self.measure.add_clause(own, self.weights[start + rank]);
        }
    }

    fn argument(&mut self, place: usize, number: usize, start: usize) -> usize {
        let production = self.grammar.production(place);
        let count = |kind: u8| self.program.counts[kind as usize];
        let own = start + count(production.result);
        self.weights.truncate(own);
        self.weights.resize(own + count(production.arguments()[number]), 0);
        for (rank, from) in (start..own).enumerate() {
            for &(argument, to) in &self.program.clause(place, rank).ranked {
                if argument as usize == number {
                    let to = own + to as usize;
                    self.weights[to] = self.weights[to].saturating_add(self.weights[from]);
                }
            }
        }
        own
    }
}

/// A tree of a root kind that is run by a program.
struct Rooted<'a> {
    grammar: &'a Grammar<'a>,
    program: &'a Program,
    root: u8,
    rank: usize,
    tree: &'a [u8],
}

impl Rooted<'_> {
    /// Checks the tree and measures its run by the rank.
    fn measure(&self) -> Result<Measure, Refusal> {
        let Rooted { grammar, program, root, rank, tree } = *self;
        if program.counts.iter().all(|&count| count == 1) {
            let tally = Length { program, measure: Measure::default() };
            return Ok(read_tree(grammar, root, tree, tally, 1)?.measure);
        }
        let mut weights = vec![0; program.counts[root as usize]];
        weights[rank] = 1;
        let tally = RankedLength { grammar, program, weights, measure: Measure::default() };
        Ok(read_tree(grammar, root, tree, tally, 0)?.measure)
    }
}

/// Writes the run of a legal tree into an output that is long enough.
struct Writer<'a> {
    grammar: &'a Grammar<'a>,
    program: &'a Program,
    tree: &'a [u8],
    output: &'a mut [u8],
    length: usize,
}

/// Where the arguments of a node start, as far as is known.
struct Starts {
    places: [usize; ARGUMENTS + 1],
    last: usize,
}

impl Writer<'_> {
    /// Writes the run, by a rank, of the tree of a kind at `start` and gives where that tree ends.
    fn write(&mut self, kind: u8, start: usize, rank: usize) -> usize {
        if self.grammar.class(kind).is_some() {
            self.put(self.tree[start]);
            self.put(self.tree[start + 1]);
            return start + 2;
        }
        let place = self.place(kind, start);
        self.write_clause(place, start + 1, rank)
    }

    /// Writes the code at a place by a rank, the arguments standing from `start`; gives their end.
    fn write_clause(&mut self, place: usize, start: usize, rank: usize) -> usize {
        let program = self.program;
        let arguments = self.grammar.production(place).arguments();
        let mut starts = Starts { places: [start; ARGUMENTS + 1], last: 0 };
        for symbol in program.code(place, rank) {
            match *symbol {
                Symbol::Production(name) => self.put(name),
                Symbol::Token(value) => {
                    let [high, low] = value.to_be_bytes();
                    self.put(high);
                    self.put(low);
                }
                Symbol::Argument(number, rank) => {
                    self.write_argument(arguments, number as usize, rank as usize, &mut starts);
                }
            }
        }
        self.learn(arguments, arguments.len(), &mut starts);
        starts.places[arguments.len()]
    }

    /// Writes the run of one argument by a rank, and learns from it where the next one starts.
    #[inline]
    fn write_argument(
        &mut self,
        arguments: &[u8],
        number: usize,
        rank: usize,
        starts: &mut Starts,
    ) {
        self.learn(arguments, number, starts);
        let end = self.write(arguments[number], starts.places[number], rank);
        if starts.last == number {
            starts.last = number + 1;
            starts.places[number + 1] = end;
        }
    }

    /// Steps over arguments until the start of the one with that number is known.
    #[inline]
    fn learn(&self, arguments: &[u8], number: usize, starts: &mut Starts) {
        while starts.last < number {
            let (kind, start) = (arguments[starts.last], starts.places[starts.last]);
            let end = tree_end(self.grammar, self.tree, kind, start);
            starts.last += 1;
            starts.places[starts.last] = end;
        }
    }

    /// The place of the production named at `start`.
    #[inline]
    fn place(&self, kind: u8, start: usize) -> usize {
        self.grammar.place(kind, self.tree[start]).expect("a legal tree")
    }

    /// Writes one byte.
    #[inline]
    fn put(&mut self, byte: u8) {
        self.output[self.length] = byte;
        self.length += 1;
    }
}

/// Runs a translation on a tree of the root kind, by one of its numbers.
pub fn run(translation: &[u8], root: u32, number: u32, tree: &[u8], output: &mut [u8]) -> Run {
    match write_run(translation, root, number, tree, output) {
        Ok(Measure { length, clauses }) => {
            Run { outcome: Outcome::Accepted(length), cost: clauses.min(MOST_COST) as u32 }
        }
        Err(reason) => Run { outcome: Outcome::Refused(reason), cost: 0 },
    }
}

/// The length of the result of a well-formed translation by a number that the root has, if the tree is
/// legal.
pub fn result_length(translation: &Translation, root: u8, number: u8, tree: &[u8]) -> Option<u64> {
    let (grammar, program) = (&Grammar::new(&translation.source), &Program::new(translation));
    let rank = translation.body.rank(root, number)?;
    let measure = Rooted { grammar, program, root, rank, tree }.measure();
    measure.ok().map(|measure| measure.length)
}

/// The rank of a number among those of the root kind, or the refusal of one that it lacks.
pub fn root_rank(translation: &Translation, root: u8, number: u32) -> Result<usize, Refusal> {
    let number = u8::try_from(number).map_err(|_| Refusal::Root)?;
    translation.body.rank(root, number).ok_or(Refusal::Root)
}

/// The tests of `run` in order, and then its result.
fn write_run(
    translation: &[u8],
    root: u32,
    number: u32,
    tree: &[u8],
    output: &mut [u8],
) -> Result<Measure, Refusal> {
    let translation = read_translation(translation)?;
    let root = root_kind(&translation.source, root)?;
    let rank = root_rank(&translation, root, number)?;
    let (grammar, program) = (&Grammar::new(&translation.source), &Program::new(&translation));
    let measure = Rooted { grammar, program, root, rank, tree }.measure()?;
    require(measure.length <= output.len() as u64, Refusal::Output)?;
    let mut writer = Writer { grammar, program, tree, output, length: 0 };
    writer.write(root, 0, rank);
    debug_assert_eq!(writer.length as u64, measure.length);
    Ok(measure)
}

#[cfg(test)]
mod tests {
    use super::*;
    use crate::files::{clause, mapping, production, translation};

    /// What is said of so many clauses.
    fn said(clauses: u64) -> u32 {
        clauses.min(MOST_COST) as u32
    }

    /// Kind 1 to itself: a leaf 1.0, 1.1 (1), which doubles its argument, and 1.2 (1), which is it.
    fn doubling() -> Vec<u8> {
        let language =
            [production(1, 0, &[]), production(1, 1, &[1]), production(1, 2, &[1])].concat();
        let target = [production(1, 0, &[]), production(1, 3, &[1, 1])].concat();
        let codes: [&[u8]; 3] = [&[1, 0], &[1, 3, 3, 1, 3, 1], &[3, 1]];
        let clauses = (0..).zip(codes).flat_map(|(name, code)| clause(1, name, code));
        translation(&language, &target, &[mapping(1, 1), clauses.collect()].concat())
    }

    /// What a run by number 0 from kind 1 would come to, without an output.
    fn measured(file: &[u8], tree: &[u8]) -> Measure {
        let value = read_translation(file).expect("a well-formed translation");
        let (grammar, program) = (&Grammar::new(&value.source), &Program::new(&value));
        let measure = Rooted { grammar, program, root: 1, rank: 0, tree }.measure();
        measure.expect("a legal tree")
    }

    /// So many times a name, then a leaf.
    fn chain(name: u8, links: usize) -> Vec<u8> {
        [vec![name; links], vec![0]].concat()
    }

    #[test]
    fn a_cost_is_said_up_to_the_most() {
        let file = crate::generate::with_turns(&doubling(), 7);
        for file in [doubling(), file] {
            for links in 0..=61 {
                let clauses = measured(&file, &chain(1, links)).clauses;
                assert_eq!(clauses, (2u64 << links) - 1);
                let around = measured(&file, &[&[2], &chain(1, links)[..]].concat()).clauses;
                assert_eq!(around, 2u64 << links, "a code that is an argument counts too");
                let lengths = (said(clauses), said(around));
                match links {
                    0..=30 => assert_eq!(lengths, ((2 << links) - 1, 2 << links)),
                    _ => assert_eq!(lengths, (u32::MAX, u32::MAX)),
                }
            }
            assert_eq!(
                measured(&file, &chain(1, 63)),
                Measure { length: u64::MAX, clauses: u64::MAX }
            );
        }
        assert_eq!(said((2 << 31) - 1), u32::MAX, "31 links make the most exactly");
        assert_eq!(said((2 << 31) - 2), u32::MAX - 1);
    }

    #[test]
    fn a_run_that_is_too_long_has_cost_0() {
        for links in [1, 31, 32, 63] {
            let found = run(&doubling(), 1, 0, &chain(1, links), &mut [0; 2]);
            assert_eq!((found.number(), found.length(), found.cost), (17, 0, 0));
        }
        let found = run(&doubling(), 1, 0, &chain(1, 1), &mut [0; 3]);
        assert_eq!((found.number(), found.length(), found.cost), (0, 3, 3));
    }
}
