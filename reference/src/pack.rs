//! Packs: languages, bodies and one term.

use crate::body::Body;
use crate::field::{states_over, Field, Fields};
use crate::language::{Draft, Language, LANGUAGE_LIMIT};
use crate::outcome::{require, Refusal};
use crate::term::{decode_term, TranslationTerm};
use std::rc::Rc;

/// A pack has at most this many bytes.
pub const PACK_LIMIT: usize = 32_768;
/// A pack has at most this many languages, and as many bodies.
pub const CONSTANTS: usize = 32;

pub const LANGUAGE_TAG: u8 = 0x30;
pub const BODY_TAG: u8 = 0x31;
pub const TERM_TAG: u8 = 0x32;

/// The constants of a pack and its term.
pub struct Pack {
    pub languages: Vec<Rc<Language>>,
    pub bodies: Vec<Body>,
    pub term: TranslationTerm,
}

/// A pack whose term is still bytes.
#[derive(Default)]
struct Parts<'a> {
    languages: Vec<Draft<Language>>,
    bodies: Vec<Draft<Body>>,
    term: Option<&'a [u8]>,
}

impl<'a> Parts<'a> {
    /// Decodes all fields; refuses broken ones, too many, and another order of groups.
    fn decode(bytes: &'a [u8]) -> Result<Parts<'a>, Refusal> {
        let mut parts = Parts::default();
        for field in Fields::new(bytes) {
            parts.add(field?)?;
        }
        require(parts.term.is_some(), Refusal::Broken)?;
        Ok(parts)
    }

    /// Adds one field behind the others.
    fn add(&mut self, field: Field<'a>) -> Result<(), Refusal> {
        require(self.term.is_none(), Refusal::Broken)?;
        match field.tag {
            LANGUAGE_TAG if self.bodies.is_empty() && self.languages.len() < CONSTANTS => {
                self.languages.push(Language::decode(field.contents)?);
            }
            BODY_TAG if self.bodies.len() < CONSTANTS => {
                self.bodies.push(Body::decode(Fields::new(field.contents))?);
            }
            TERM_TAG => self.term = Some(field.contents),
            _ => return Err(Refusal::Broken),
        }
        Ok(())
    }

    /// Whether the fields of all languages and bodies stand in rising order.
    fn rising(&self) -> bool {
        self.languages.iter().all(|draft| draft.rising)
            && self.bodies.iter().all(|draft| draft.rising)
    }

    /// Whether a kind of some language is both a class and a result.
    fn clash(&self) -> bool {
        self.languages.iter().any(|draft| draft.value.clashes())
    }
}

/// Reads a pack that must pass all tests before its term is worked out, but for the room.
pub fn read_pack(bytes: &[u8]) -> Result<Pack, Refusal> {
    require(bytes.len() <= PACK_LIMIT, Refusal::TooLong)?;
    require(!states_over(bytes, &[LANGUAGE_TAG], LANGUAGE_LIMIT), Refusal::TooLong)?;
    let parts = Parts::decode(bytes)?;
    require(parts.rising(), Refusal::Order)?;
    require(!parts.clash(), Refusal::Clash)?;
    let term = parts.term.unwrap_or_default();
    let term = decode_term(term, parts.languages.len(), parts.bodies.len());
    Ok(Pack {
        term: term.ok_or(Refusal::Term)?,
        languages: parts.languages.into_iter().map(|draft| Rc::new(draft.value)).collect(),
        bodies: parts.bodies.into_iter().map(|draft| draft.value).collect(),
    })
}
