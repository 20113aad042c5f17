//! Translations: source, target and body, and when they are well formed.

use crate::body::Body;
use crate::code::{is_code_of, ArgumentKinds};
use crate::field::{put_header, states_over, Fields, HEADER};
use crate::grammar::Grammar;
use crate::language::{bit, Draft, Language, Production, KINDS, LANGUAGE_LIMIT};
use crate::outcome::{require, Outcome, Refusal};

/// A translation has at most this many bytes.
pub const TRANSLATION_LIMIT: usize = 4096;

pub const SOURCE_TAG: u8 = 0x20;
pub const TARGET_TAG: u8 = 0x21;

/// A translation from the source language to the target language.
#[derive(Clone, Debug)]
pub struct Translation {
    pub source: Language,
    pub target: Language,
    pub body: Body,
}

impl Translation {
    /// The number of bytes that `encode` gives.
    pub fn encoded_length(&self) -> usize {
        2 * HEADER
            + self.source.encoded_length()
            + self.target.encoded_length()
            + self.body.encoded_length()
    }

    /// The translation as bytes.
    pub fn encode(&self) -> Vec<u8> {
        let mut output = Vec::with_capacity(self.encoded_length());
        put_header(&mut output, SOURCE_TAG, self.source.encoded_length());
        self.source.encode(&mut output);
        put_header(&mut output, TARGET_TAG, self.target.encoded_length());
        self.target.encode(&mut output);
        self.body.encode(&mut output);
        output
    }

    /// Refuses a mapping, then clauses, then codes that are not as required.
    pub fn check_well_formed(&self) -> Result<(), Refusal> {
        require(self.maps_as_required(), Refusal::Mapping)?;
        require(self.has_all_clauses(), Refusal::Clauses)?;
        require(self.has_typed_codes(), Refusal::Code)
    }

    /// The kind that a kind of the source is mapped to by number 0.
    pub fn mapped(&self, kind: u8) -> u8 {
        self.body.mapping[kind as usize].expect("every kind of the source is mapped")
    }

    /// Whether exactly the kinds of the source are mapped, by number 0 and perhaps others, each as it
    /// must be.
    pub fn maps_as_required(&self) -> bool {
        let (source_kinds, target_kinds) = (self.source.kinds(), self.target.kinds());
        let lands_in_target =
            |kind: &Option<u8>| kind.is_none_or(|kind| target_kinds & bit(kind) != 0);
        let mut others = self.body.others.iter();
        self.body.mapped_kinds() == source_kinds
            && self.body.mapping.iter().all(lands_in_target)
            && others.all(|other| {
                source_kinds & bit(other.kind) != 0 && target_kinds & bit(other.target) != 0
            })
            && self.maps_classes_into_classes()
    }

    /// Whether each source class is mapped, by each number, to a target class that contains its range.
    fn maps_classes_into_classes(&self) -> bool {
        let mut targets = [None; KINDS];
        for class in &self.target.classes {
            targets[class.kind as usize] = Some(class);
        }
        let mut classes = self.source.classes.iter();
        classes.all(|class| {
            self.body.numbers(class.kind).all(|(_, kind)| {
                targets[kind as usize].is_some_and(|target| target.contains(class))
            })
        })
    }

    /// What clauses there must be, in order: each production with each number of its result, and the
    /// kind that the result is mapped to by it.
    pub fn due_clauses(&self) -> impl Iterator<Item = (&Production, u8, u8)> {
        self.source.productions.iter().flat_map(|production| {
            let numbers = self.body.numbers(production.result);
            numbers.map(move |(number, kind)| (production, number, kind))
        })
    }

    /// Whether each source production has exactly one clause for each number of its result, and no
    /// clause is left over.
    pub fn has_all_clauses(&self) -> bool {
        let places = self.body.clauses.iter().map(|clause| clause.place());
        places.eq(self.due_clauses().map(|(production, number, _)| (production.key(), number)))
    }

    /// Whether each code is of the kind that its production's result is mapped to by its number.
    fn has_typed_codes(&self) -> bool {
        let target = Grammar::new(&self.target);
        let mut clauses = self.due_clauses().zip(self.body.clauses.iter());
        clauses.all(|((production, _, kind), clause)| {
            let arguments = ArgumentKinds { body: &self.body, arguments: production.arguments() };
            is_code_of(&target, &arguments, kind, clause.code)
        })
    }
}

/// Decodes source, target and body; refuses broken fields and other groups of fields.
fn decode(bytes: &[u8]) -> Result<Draft<Translation>, Refusal> {
    let mut fields = Fields::new(bytes);
    let source = decode_language(&mut fields, SOURCE_TAG)?;
    let target = decode_language(&mut fields, TARGET_TAG)?;
    let body = Body::decode(fields)?;
    let rising = source.rising && target.rising && body.rising;
    let value = Translation { source: source.value, target: target.value, body: body.value };
    Ok(Draft { value, rising })
}

/// Decodes the language in the next field, which must have the tag.
fn decode_language(fields: &mut Fields, tag: u8) -> Result<Draft<Language>, Refusal> {
    let field = fields.next().ok_or(Refusal::Broken)??;
    require(field.tag == tag, Refusal::Broken)?;
    Language::decode(field.contents)
}

/// Reads a translation whose fields and languages must pass their checks.
pub fn read_fields(bytes: &[u8]) -> Result<Translation, Refusal> {
    require(bytes.len() <= TRANSLATION_LIMIT, Refusal::TooLong)?;
    let over = states_over(bytes, &[SOURCE_TAG, TARGET_TAG], LANGUAGE_LIMIT);
    require(!over, Refusal::TooLong)?;
    let draft = decode(bytes)?;
    require(draft.rising, Refusal::Order)?;
    let translation = draft.value;
    let clash = translation.source.clashes() || translation.target.clashes();
    require(!clash, Refusal::Clash)?;
    Ok(translation)
}

/// Reads a translation that must pass the whole check.
pub fn read_translation(bytes: &[u8]) -> Result<Translation, Refusal> {
    let translation = read_fields(bytes)?;
    translation.check_well_formed()?;
    Ok(translation)
}

/// Checks a translation.
pub fn check_translation(translation: &[u8]) -> Outcome {
    read_translation(translation).map(|_| ()).into()
}
