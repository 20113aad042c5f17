//! Load scores: tables of fields 24, the score of a tree, and a table joined onto a translation.

use crate::code::Symbol;
use crate::field::{put_header, two_bytes, Field, Fields, HEADER};
use crate::grammar::Grammar;
use crate::language::{read_language, Language, Production, ARGUMENTS};
use crate::outcome::{require, Outcome, Refusal};
use crate::translation::{read_translation, Translation};
use crate::tree::{read_tree, root_kind, Nothing};

pub const TABLE_TAG: u8 = 0x24;
/// The bytes of a field's contents before its factors: result, name and constant.
pub const LINE_LENGTH: usize = 4;
/// The score of each node lies between these.
pub const LEAST_SCORE: i64 = -1_000_000_000;
pub const MOST_SCORE: i64 = 1_000_000_000;

/// What a score answers; a refused one is 0.
#[derive(Clone, Copy, Debug, PartialEq, Eq)]
pub struct Score {
    pub outcome: Outcome,
    pub score: i64,
}

/// The line of a production: its constant and a factor for each argument; others are 0.
#[derive(Clone, Copy, Default)]
pub struct Line {
    pub constant: i32,
    pub factors: [i32; ARGUMENTS],
}

/// The lines of a language, by the places of its productions.
pub struct Table {
    pub lines: Vec<Line>,
}

/// A number of two bytes with a sign, the high byte first.
pub fn signed(bytes: &[u8]) -> i32 {
    i32::from(two_bytes(bytes[0], bytes[1]) as i16)
}

impl Line {
    /// Decodes the field that stands for a production, if it is one.
    fn decode(production: &Production, field: Field) -> Option<Line> {
        let count = production.arguments().len();
        let whole = field.tag == TABLE_TAG && field.contents.len() == LINE_LENGTH + 2 * count;
        if !whole || field.contents[..2] != production.key().to_be_bytes() {
            return None;
        }
        let mut line = Line { constant: signed(&field.contents[2..]), ..Line::default() };
        let factors = field.contents[LINE_LENGTH..].chunks_exact(2);
        line.factors.iter_mut().zip(factors).for_each(|(place, bytes)| *place = signed(bytes));
        Some(line)
    }
}

impl Table {
    /// Reads the table of a language: one field for each production, in the same order.
    pub fn read(language: &Language, bytes: &[u8]) -> Result<Table, Refusal> {
        let mut fields = Fields::new(bytes);
        let line = |production| Line::decode(production, fields.next()?.ok()?);
        let lines: Option<Vec<Line>> = language.productions.iter().map(line).collect();
        require(fields.next().is_none(), Refusal::Table)?;
        Ok(Table { lines: lines.ok_or(Refusal::Table)? })
    }
}

/// Adds up the score of a legal tree, from left to right.
struct Scorer<'a> {
    grammar: &'a Grammar<'a>,
    table: &'a Table,
    rest: &'a [u8],
}

impl Scorer<'_> {
    /// The score of the next tree, which is of the kind.
    fn score(&mut self, kind: u8) -> Result<i64, Refusal> {
        if self.grammar.class(kind).is_some() {
            let (value, rest) = self.rest.split_first_chunk().expect("a legal tree");
            self.rest = rest;
            return Ok(i64::from(u16::from_be_bytes(*value)));
        }
        let (&name, rest) = self.rest.split_first().expect("a legal tree");
        self.rest = rest;
        let place = self.grammar.place(kind, name).expect("a legal tree");
        self.score_production(place)
    }

    /// The score of a production whose arguments stand next, added from the last to the first.
    fn score_production(&mut self, place: usize) -> Result<i64, Refusal> {
        let Line { constant, factors } = self.table.lines[place];
        let (mut scores, arguments) = ([0; ARGUMENTS], self.grammar.production(place).arguments());
        for (score, &argument) in scores.iter_mut().zip(arguments) {
            *score = self.score(argument)?;
        }
        let products = scores.iter().zip(factors).take(arguments.len()).rev();
        let add = |sum, (score, factor): (&i64, i32)| sum + i64::from(factor) * score;
        let score = products.fold(i64::from(constant), add);
        require((LEAST_SCORE..=MOST_SCORE).contains(&score), Refusal::Score)?;
        Ok(score)
    }
}

/// Scores a tree of the root kind by a table of the language.
pub fn score(language: &[u8], root: u32, tree: &[u8], table: &[u8]) -> Score {
    match find_score(language, root, tree, table) {
        Ok(score) => Score { outcome: Outcome::Accepted(0), score },
        Err(reason) => Score { outcome: Outcome::Refused(reason), score: 0 },
    }
}

/// The tests of `score` in order, and then its result.
fn find_score(language: &[u8], root: u32, tree: &[u8], table: &[u8]) -> Result<i64, Refusal> {
    let language = read_language(language)?;
    let table = Table::read(&language, table)?;
    let root = root_kind(&language, root)?;
    let grammar = Grammar::new(&language);
    read_tree(&grammar, root, tree, Nothing, ())?;
    Scorer { grammar: &grammar, table: &table, rest: tree }.score(root)
}

/// What a code scores: a constant, and a factor for each argument of its clause.
#[derive(Clone, Copy, Default)]
pub struct Form {
    pub constant: i64,
    pub factors: [i64; ARGUMENTS],
}

impl Form {
    /// Adds another form so many times.
    pub fn add(&mut self, times: i32, other: &Form) {
        let times = i64::from(times);
        self.constant += times * other.constant;
        let pairs = self.factors.iter_mut().zip(other.factors);
        pairs.for_each(|(factor, other)| *factor += times * other);
    }

    /// The first figure that does not fit two bytes, the constant as number 0.
    pub fn misfit(&self) -> Option<(usize, i64)> {
        let figures = [self.constant].into_iter().chain(self.factors);
        figures.enumerate().find(|(_, figure)| i16::try_from(*figure).is_err())
    }

    /// Refuses a constant or factor that does not fit two bytes.
    fn check(self) -> Result<Form, Refusal> {
        require(self.misfit().is_none(), Refusal::Limit)?;
        Ok(self)
    }

    /// Appends the field of a production; the figures must fit.
    fn put(&self, production: &Production, output: &mut Vec<u8>) {
        let count = production.arguments().len();
        put_header(output, TABLE_TAG, LINE_LENGTH + 2 * count);
        output.extend_from_slice(&production.key().to_be_bytes());
        let figures = [self.constant].into_iter().chain(self.factors.into_iter().take(count));
        figures.for_each(|figure| output.extend_from_slice(&(figure as i16).to_be_bytes()));
    }
}

/// Works out what codes score by a table of the target.
struct Joiner<'a> {
    target: &'a Grammar<'a>,
    table: &'a Table,
}

impl Joiner<'_> {
    /// What the first code of a kind scores, and the bytes behind it; productions are checked.
    fn form<'a>(&self, kind: u8, code: &'a [u8]) -> Result<(Form, &'a [u8]), Refusal> {
        let (symbol, rest) = Symbol::split(code).expect("a well-formed code");
        let mut form = Form::default();
        match symbol {
            Symbol::Token(value) => form.constant = i64::from(value),
            Symbol::Argument(number, _) => form.factors[number as usize] = 1,
            Symbol::Production(name) => {
                let place = self.target.place(kind, name).expect("a well-formed code");
                return self.production_form(place, rest);
            }
        }
        Ok((form, rest))
    }

    /// What a production scores whose arguments stand next.
    fn production_form<'a>(
        &self,
        place: usize,
        code: &'a [u8],
    ) -> Result<(Form, &'a [u8]), Refusal> {
        let Line { constant, factors } = self.table.lines[place];
        let mut form = Form { constant: i64::from(constant), ..Form::default() };
        let mut rest = code;
        for (&argument, factor) in self.target.production(place).arguments().iter().zip(factors) {
            let (operand, behind) = self.form(argument, rest)?;
            form.add(factor, &operand);
            rest = behind;
        }
        Ok((form.check()?, rest))
    }
}

/// Joins a table of the target onto a translation: a table that scores source trees.
pub fn join_table(translation: &[u8], table: &[u8], output: &mut [u8]) -> Outcome {
    write_table(translation, table, output).into()
}

/// The tests of `join_table` in order, and then its result.
fn write_table(translation: &[u8], table: &[u8], output: &mut [u8]) -> Result<u64, Refusal> {
    let translation = read_translation(translation)?;
    require(translation.body.is_plain(), Refusal::Number)?;
    let table = Table::read(&translation.target, table)?;
    let joined = joined_table(&translation, &table)?;
    let place = output.get_mut(..joined.len()).ok_or(Refusal::Output)?;
    place.copy_from_slice(&joined);
    Ok(joined.len() as u64)
}

/// The bytes of the joined table: for each source production what its code scores. The translation has
/// no number but 0.
pub fn joined_table(translation: &Translation, table: &Table) -> Result<Vec<u8>, Refusal> {
    let target = Grammar::new(&translation.target);
    let joiner = Joiner { target: &target, table };
    let productions = &translation.source.productions;
    let mut joined = Vec::with_capacity(productions.len() * (HEADER + LINE_LENGTH + 2));
    for (production, clause) in productions.iter().zip(translation.body.clauses.iter()) {
        let kind = translation.mapped(production.result);
        let (form, _) = joiner.form(kind, clause.code)?;
        form.check()?.put(production, &mut joined);
    }
    Ok(joined)
}
