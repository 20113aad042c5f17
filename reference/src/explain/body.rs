//! Faults of bodies: broken fields, and mappings and clauses that are not as required.

use super::code::code_fault;
use super::language::{kind_fault, kind_in};
use super::piece::Local;
use super::{Fault, Piece, Spot};
use crate::body::{Body, CLAUSE_TAG, MAPPING_TAG, NUMBERED_CLAUSE_TAG, NUMBERED_MAPPING_TAG};
use crate::code::ArgumentKinds;
use crate::field::Fields;
use crate::grammar::Grammar;
use crate::language::{bit, Language, Production, KINDS};
use crate::outcome::Refusal;

/// Looks for a broken field, or a mapping behind a clause.
pub fn check_fields(piece: &Piece) -> Result<(), Fault> {
    let mut behind_clause = false;
    piece.walk().try_for_each(|spot| {
        let spot = spot?;
        check_entry(piece, &spot, behind_clause)?;
        behind_clause = spot.key().0 == CLAUSE_TAG;
        Ok(())
    })
}

/// What is wrong with a field 28 or 29.
fn numbered_fault(spot: &Spot) -> Option<Local> {
    let length = spot.contents.len();
    match (spot.tag, spot.contents) {
        (NUMBERED_MAPPING_TAG, [kind, number, target]) => kind_fault(3, *kind)
            .or_else(|| number_fault(4, *number, MAPPING_TAG))
            .or_else(|| kind_fault(5, *target)),
        (NUMBERED_MAPPING_TAG, _) => {
            Some((1, format!("a mapping by a number has length 3, not {length}")))
        }
        (_, [result, _, number, ..]) => {
            kind_fault(3, *result).or_else(|| number_fault(5, *number, CLAUSE_TAG))
        }
        _ => Some((1, format!("a clause by a number has length 3 or more, not {length}"))),
    }
}

/// Refuses a field that is neither a mapping nor a clause, or a mapping behind a clause.
fn check_entry(piece: &Piece, spot: &Spot, behind_clause: bool) -> Result<(), Fault> {
    let length = spot.contents.len();
    let local = match (spot.tag, spot.contents) {
        (MAPPING_TAG | NUMBERED_MAPPING_TAG, _) if behind_clause => {
            Some((0, "a mapping stands behind a clause".to_string()))
        }
        (NUMBERED_MAPPING_TAG | NUMBERED_CLAUSE_TAG, _) => numbered_fault(spot),
        (MAPPING_TAG, [source, target]) => {
            kind_fault(3, *source).or_else(|| kind_fault(4, *target))
        }
        (MAPPING_TAG, _) => Some((1, format!("a mapping has length 2, not {length}"))),
        (CLAUSE_TAG, [result, _, ..]) => kind_fault(3, *result),
        (CLAUSE_TAG, _) => Some((1, format!("a clause has length 2 or more, not {length}"))),
        (tag, _) => Some((0, format!("field 22, 23, 28 or 29 is needed, and this is {tag:02X}"))),
    };
    local.map_or(Ok(()), |local| Err(piece.fault_in(spot, local)))
}

/// What is wrong with a number at a place of a field, if the field of another tag has number 0.
fn number_fault(place: usize, number: u8, tag: u8) -> Option<Local> {
    (number == 0).then(|| (place, format!("number 0 is written as a field {tag:02X}")))
}

/// A body between two languages, with its fields.
pub struct Between<'a> {
    pub source: &'a Language,
    pub target: &'a Language,
    pub piece: &'a Piece<'a>,
    body: Body,
    mappings: Vec<Spot<'a>>,
    clauses: Vec<Spot<'a>>,
}

impl<'a> Between<'a> {
    /// A body whose fields are whole and in order.
    pub fn new(source: &'a Language, target: &'a Language, piece: &'a Piece<'a>) -> Between<'a> {
        let (mappings, clauses) =
            piece.spots().into_iter().partition(|spot| spot.key().0 == MAPPING_TAG);
        let body = Body::decode(Fields::new(piece.bytes));
        let body = body.map(|draft| draft.value).unwrap_or_default();
        Between { source, target, piece, body, mappings, clauses }
    }

    /// Looks for what keeps the translation from being well formed.
    pub fn check(&self) -> Result<(), Fault> {
        self.check_mapped()?;
        self.mappings.iter().try_for_each(|spot| self.check_mapping(spot))?;
        self.check_clauses()?;
        self.check_codes()
    }

    /// Where a field that is missing would stand.
    fn place_of(&self, key: (u8, u16, u8)) -> usize {
        let mut behind = self.mappings.iter().chain(&self.clauses).filter(|spot| spot.key() > key);
        behind.next().map_or(self.piece.end(), |spot| spot.at)
    }

    /// Refuses a kind of the source that is not mapped by number 0.
    fn check_mapped(&self) -> Result<(), Fault> {
        let kinds = (0..KINDS as u8).filter(|&kind| self.source.kinds() & bit(kind) != 0);
        let missing = kinds.into_iter().find(|&kind| self.body.mapping[kind as usize].is_none());
        missing.map_or(Ok(()), |kind| {
            let what = format!("kind {kind} is in the source and is not mapped");
            Err(self.piece.fault(
                Refusal::Mapping,
                self.place_of((MAPPING_TAG, u16::from(kind), 0)),
                what,
            ))
        })
    }

    /// Refuses a mapping that is not as required.
    fn check_mapping(&self, spot: &Spot) -> Result<(), Fault> {
        let (source, target) = (spot.contents[0], spot.contents[spot.contents.len() - 1]);
        let fault = |what: String| {
            let piece = self.piece.named(spot.name());
            Err(piece.fault(Refusal::Mapping, spot.at, what))
        };
        if self.source.kinds() & bit(source) == 0 {
            return fault(format!("kind {source} is not in the source"));
        }
        if self.target.kinds() & bit(target) == 0 {
            return fault(format!("kind {target} is not in the target"));
        }
        let class_of = |language: &Language, kind: u8| {
            language.classes.iter().find(|class| class.kind == kind).copied()
        };
        let Some(class) = class_of(self.source, source) else { return Ok(()) };
        match class_of(self.target, target) {
            Some(wider) if wider.contains(&class) => Ok(()),
            Some(other) => fault(format!(
                "class {source} of {} is mapped to class {target} of {}, which does not contain it",
                class.range(),
                other.range()
            )),
            None => fault(format!(
                "class {source} of {} is mapped to {}; it must be mapped to a class",
                class.range(),
                kind_in(self.target, target)
            )),
        }
    }

    /// Refuses a production without a clause for a number of its result, and a clause without a
    /// production or for a number that its result lacks.
    fn check_clauses(&self) -> Result<(), Fault> {
        let has_clause = |key: u16, number: u8| {
            self.clauses.iter().any(|spot| spot.key() == (CLAUSE_TAG, key, number))
        };
        let due = self.source.productions.iter().flat_map(|production| {
            self.body.numbers(production.result).map(move |(number, _)| (production, number))
        });
        let mut missing = due.filter(|(production, number)| !has_clause(production.key(), *number));
        if let Some((production, number)) = missing.next() {
            let what = match number {
                0 => format!("production {} of the source has no clause", production.title()),
                _ => format!("production {} has no clause for number {number}", production.title()),
            };
            let place = self.place_of((CLAUSE_TAG, production.key(), number));
            return Err(self.piece.fault(Refusal::Clauses, place, what));
        }
        self.clauses.iter().try_for_each(|spot| self.check_due(spot))
    }

    /// Refuses a clause without a production, or for a number that its result lacks.
    fn check_due(&self, spot: &Spot) -> Result<(), Fault> {
        let (_, key, number) = spot.key();
        let what = match self.production(key) {
            None => "the source has no such production".to_string(),
            Some(of) if self.body.rank(of.result, number).is_some() => return Ok(()),
            Some(of) => format!("kind {} has no number {number}", of.result),
        };
        Err(self.piece.named(spot.name()).fault(Refusal::Clauses, spot.at, what))
    }

    /// The production of the source with a key.
    fn production(&self, key: u16) -> Option<&Production> {
        self.source.productions.iter().find(|production| production.key() == key)
    }

    /// Refuses a code that is not of its kind.
    fn check_codes(&self) -> Result<(), Fault> {
        let target = Grammar::new(self.target);
        self.clauses.iter().try_for_each(|spot| self.check_code(&target, spot))
    }

    /// Refuses the code of one clause.
    fn check_code(&self, target: &Grammar, spot: &Spot) -> Result<(), Fault> {
        let (_, key, number) = spot.key();
        let Some(production) = self.production(key) else { return Ok(()) };
        let kind = self.body.mapped(production.result, number).unwrap_or(production.result);
        let start = if number == 0 { 2 } else { 3 };
        let arguments = ArgumentKinds { body: &self.body, arguments: production.arguments() };
        let fault = code_fault(target, &arguments, kind, &spot.contents[start..]);
        fault.map_or(Ok(()), |(place, what)| {
            let piece = self.piece.named(spot.name()).named(format!("byte {place} of its code"));
            Err(piece.fault(Refusal::Code, spot.inside() + start + place, what))
        })
    }
}
