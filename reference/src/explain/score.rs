//! Faults of scores, and of load tables joined onto translations.

use super::nodes::place_name;
use super::tree::check_rooted;
use super::{language, table, translation, translation_pieces, Fault, Piece, Spot};
use crate::body::CLAUSE_TAG;
use crate::code::Symbol;
use crate::grammar::Grammar;
use crate::language::Language;
use crate::outcome::Refusal;
use crate::score::{joined_table, Form, Table, LEAST_SCORE, MOST_SCORE};
use crate::translation::{read_translation, Translation};

/// Looks for any fault of a language, a load table, a root and a tree, and of the scores in it.
pub fn check(bytes: &[u8], root: u32, tree: &[u8], table: &[u8]) -> Result<(), Fault> {
    let (language, table) = language_and_table(bytes, table)?;
    let root = check_rooted(&language, "language", root, tree)?;
    let (grammar, piece) = (Grammar::new(&language), Piece::whole("tree", tree));
    let mut scorer = Scorer { grammar: &grammar, table: &table, piece, at: 0, path: vec![] };
    scorer.score(root).map(|_| ())
}

/// A language and a load table of it, each without a fault.
pub fn language_and_table(bytes: &[u8], table: &[u8]) -> Result<(Language, Table), Fault> {
    let piece = Piece::whole("language", bytes);
    language::check(&piece)?;
    let language = translation::decoded(&piece)?;
    table::check(&language, table)?;
    let table = Table::read(&language, table).map_err(|reason| vague(reason, "table"))?;
    Ok((language, table))
}

/// A fault that no place is known of.
fn vague(reason: Refusal, input: &'static str) -> Fault {
    Piece::whole(input, &[]).fault_somewhere(reason, "it has no value".to_string())
}

/// Adds up the score of a legal tree and knows the path to each node.
struct Scorer<'a> {
    grammar: &'a Grammar<'a>,
    table: &'a Table,
    piece: Piece<'a>,
    at: usize,
    path: Vec<usize>,
}

impl Scorer<'_> {
    /// The score of the next tree, which is of the kind.
    fn score(&mut self, kind: u8) -> Result<i64, Fault> {
        let (start, rest) = (self.at, &self.piece.bytes[self.at..]);
        if self.grammar.class(kind).is_some() {
            self.at += 2;
            return Ok(i64::from(u16::from_be_bytes([rest[0], rest[1]])));
        }
        self.at += 1;
        let name = rest[0];
        let place = self.grammar.place(kind, name).expect("a legal tree");
        let score = self.score_production(place)?;
        if (LEAST_SCORE..=MOST_SCORE).contains(&score) {
            return Ok(score);
        }
        let what = format!("production {kind}.{name} scores {score} here");
        Err(self.piece.named(place_name(&self.path)).fault(Refusal::Score, start, what))
    }

    /// The score of a production whose arguments stand next.
    fn score_production(&mut self, place: usize) -> Result<i64, Fault> {
        let line = self.table.lines[place];
        let mut score = i64::from(line.constant);
        for (number, &kind) in self.grammar.production(place).arguments().iter().enumerate() {
            self.path.push(number + 1);
            score += i64::from(line.factors[number]) * self.score(kind)?;
            self.path.pop();
        }
        Ok(score)
    }
}

/// Looks for any fault of a translation and a load table of its target, of the figures of the
/// joined table, and of the output's length.
pub fn check_join(bytes: &[u8], table: &[u8], output: usize) -> Result<(), Fault> {
    translation::check(bytes)?;
    let translation = read_translation(bytes).map_err(|reason| vague(reason, "translation"))?;
    translation::check_plain(&translation, "a table")?;
    table::check(&translation.target, table)?;
    let table = Table::read(&translation.target, table).map_err(|reason| vague(reason, "table"))?;
    check_figures(bytes, &translation, &table)?;
    let joined = joined_table(&translation, &table).map_err(|reason| vague(reason, "table"))?;
    if joined.len() <= output {
        return Ok(());
    }
    let what = format!("its length is {output}, and that of the table {}", joined.len());
    Err(Piece::whole("output", &[]).fault_somewhere(Refusal::Output, what))
}

/// Refuses a constant or factor that does not fit two bytes, in the first code that has one.
fn check_figures(bytes: &[u8], translation: &Translation, table: &Table) -> Result<(), Fault> {
    let body = translation_pieces(bytes)?.body;
    let target = Grammar::new(&translation.target);
    for spot in body.spots().iter().filter(|spot| spot.tag == CLAUSE_TAG) {
        let kind = translation.mapped(spot.contents[0]);
        let joiner = Joiner { target: &target, table, code: &spot.contents[2..] };
        let form = joiner.form(kind, 0).and_then(|(form, _)| fitting(form, 0));
        form.map_err(|misfit| figure_fault(&body, spot, misfit))?;
    }
    Ok(())
}

/// A figure that does not fit: where in the code, its number (0 for the constant), and itself.
type Misfit = (usize, usize, i64);

/// A form whose figures fit two bytes, or the one that does not.
fn fitting(form: Form, at: usize) -> Result<Form, Misfit> {
    form.misfit().map_or(Ok(form), |(number, figure)| Err((at, number, figure)))
}

/// The fault of a figure in the code of a clause.
fn figure_fault(body: &Piece, spot: &Spot, (at, number, figure): Misfit) -> Fault {
    let name = match number {
        0 => "the constant".to_string(),
        _ => format!("the factor of argument {number}"),
    };
    let what = format!("{name} comes to {figure} here, which does not fit two bytes");
    let piece = body.named(spot.name()).named(format!("byte {at} of its code"));
    piece.fault(Refusal::Limit, spot.inside() + 2 + at, what)
}

/// Works out what a code scores by a table of the target.
struct Joiner<'a> {
    target: &'a Grammar<'a>,
    table: &'a Table,
    code: &'a [u8],
}

impl Joiner<'_> {
    /// What the code of a kind at a place scores, and where it ends; productions must fit.
    fn form(&self, kind: u8, at: usize) -> Result<(Form, usize), Misfit> {
        let (symbol, rest) = Symbol::split(&self.code[at..]).expect("a well-formed code");
        let (mut form, behind) = (Form::default(), self.code.len() - rest.len());
        match symbol {
            Symbol::Token(value) => form.constant = i64::from(value),
            Symbol::Argument(number, _) => form.factors[usize::from(number)] = 1,
            Symbol::Production(name) => {
                let place = self.target.place(kind, name).expect("a well-formed code");
                let (form, behind) = self.production_form(place, behind)?;
                return Ok((fitting(form, at)?, behind));
            }
        }
        Ok((form, behind))
    }

    /// What a production scores whose arguments stand at a place, and where they end.
    fn production_form(&self, place: usize, start: usize) -> Result<(Form, usize), Misfit> {
        let line = self.table.lines[place];
        let mut form = Form { constant: i64::from(line.constant), ..Form::default() };
        let (mut at, arguments) = (start, self.target.production(place).arguments());
        for (&kind, factor) in arguments.iter().zip(line.factors) {
            let (operand, behind) = self.form(kind, at)?;
            form.add(factor, &operand);
            at = behind;
        }
        Ok((form, at))
    }
}
