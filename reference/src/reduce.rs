//! Reducing a pack: working out its term to one translation.

use crate::body::Body;
use crate::language::Language;
use crate::operators::{
    identity, is_within_limits, join, language_without, sum_languages, sum_translations,
    translation_without,
};
use crate::outcome::{require, Outcome, Refusal};
use crate::pack::{read_pack, Pack};
use crate::term::{LanguageTerm, TranslationTerm, VARIABLES};
use crate::translation::{Translation, TRANSLATION_LIMIT};
use std::rc::Rc;

/// The workspace has at least this many bytes.
pub const WORKSPACE_LEAST: usize = 65_536;
/// The output has at least this many bytes.
pub const OUTPUT_LEAST: usize = TRANSLATION_LIMIT;

/// Works out terms: the constants of the pack and the values of the variables.
pub struct Reducer<'a> {
    constants: &'a [Rc<Language>],
    pub bodies: &'a [Body],
    languages: [Option<Rc<Language>>; VARIABLES],
    translations: [Option<Rc<Translation>>; VARIABLES],
}

impl<'a> Reducer<'a> {
    /// Starts with no variable bound.
    pub fn new(pack: &'a Pack) -> Reducer<'a> {
        Reducer {
            constants: &pack.languages,
            bodies: &pack.bodies,
            languages: Default::default(),
            translations: Default::default(),
        }
    }

    /// Works out a language term.
    pub fn language(&mut self, term: &LanguageTerm) -> Result<Rc<Language>, Refusal> {
        use LanguageTerm::*;
        match term {
            Constant(number) => Ok(self.constants[*number].clone()),
            Variable(number) => self.languages[*number].clone().ok_or(Refusal::Unbound),
            Without(first, second) => {
                let (first, second) = (self.language(first)?, self.language(second)?);
                Ok(Rc::new(language_without(&first, &second)))
            }
            Sum(first, second) => {
                let (first, second) = (self.language(first)?, self.language(second)?);
                sum_languages(&first, &second).map(Rc::new)
            }
            Source(of) => Ok(Rc::new(self.translation(of)?.source.clone())),
            Target(of) => Ok(Rc::new(self.translation(of)?.target.clone())),
            LetLanguage(number, value, within) => {
                self.with_language(*number, value, |reducer| reducer.language(within))
            }
            LetTranslation(number, value, within) => {
                self.with_translation(*number, value, |reducer| reducer.language(within))
            }
        }
    }

    /// Works out a translation term.
    pub fn translation(&mut self, term: &TranslationTerm) -> Result<Rc<Translation>, Refusal> {
        use TranslationTerm::*;
        match term {
            Body(source, target, body) => {
                let (source, target) = (self.language(source)?, self.language(target)?);
                self.build(&source, &target, *body).map(Rc::new)
            }
            Variable(number) => self.translations[*number].clone().ok_or(Refusal::Unbound),
            Without(first, second) => {
                let (first, second) = (self.translation(first)?, self.language(second)?);
                Ok(Rc::new(translation_without(&first, &second)))
            }
            Sum(first, second) => {
                let (first, second) = (self.translation(first)?, self.translation(second)?);
                sum_translations(&first, &second).map(Rc::new)
            }
            Join(outer, inner) => {
                let (outer, inner) = (self.translation(outer)?, self.translation(inner)?);
                join(&outer, &inner).map(Rc::new)
            }
            Identity(language) => Ok(Rc::new(identity(&*self.language(language)?))),
            LetLanguage(number, value, within) => {
                self.with_language(*number, value, |reducer| reducer.translation(within))
            }
            LetTranslation(number, value, within) => {
                self.with_translation(*number, value, |reducer| reducer.translation(within))
            }
        }
    }

    /// Builds a translation from its parts and refuses one that is not well formed.
    fn build(
        &self,
        source: &Language,
        target: &Language,
        body: usize,
    ) -> Result<Translation, Refusal> {
        let (source, target) = (source.clone(), target.clone());
        let translation = Translation { source, target, body: self.bodies[body].clone() };
        translation.check_well_formed()?;
        require(is_within_limits(&translation), Refusal::Limit)?;
        Ok(translation)
    }

    /// Works out what stands within the let of a language variable.
    pub fn with_language<T>(
        &mut self,
        number: usize,
        value: &LanguageTerm,
        within: impl FnOnce(&mut Self) -> Result<T, Refusal>,
    ) -> Result<T, Refusal> {
        let value = self.language(value)?;
        let hidden = self.languages[number].replace(value);
        let result = within(self);
        self.languages[number] = hidden;
        result
    }

    /// Works out what stands within the let of a translation variable.
    pub fn with_translation<T>(
        &mut self,
        number: usize,
        value: &TranslationTerm,
        within: impl FnOnce(&mut Self) -> Result<T, Refusal>,
    ) -> Result<T, Refusal> {
        let value = self.translation(value)?;
        let hidden = self.translations[number].replace(value);
        let result = within(self);
        self.translations[number] = hidden;
        result
    }
}

/// Reduces a pack to one translation; the workspace is cleared if the term was worked out.
pub fn reduce(pack: &[u8], workspace: &mut [u8], output: &mut [u8]) -> Outcome {
    let pack = match admit(pack, workspace.len(), output.len()) {
        Ok(pack) => pack,
        Err(reason) => return Outcome::Refused(reason),
    };
    let value = Reducer::new(&pack).translation(&pack.term);
    workspace.fill(0);
    value.map(|translation| put_translation(&translation, output)).into()
}

/// The tests before the term is worked out, in order.
fn admit(pack: &[u8], workspace: usize, output: usize) -> Result<Pack, Refusal> {
    let pack = read_pack(pack)?;
    require(workspace >= WORKSPACE_LEAST && output >= OUTPUT_LEAST, Refusal::Room)?;
    Ok(pack)
}

/// Writes the translation at the start of the output and gives its length.
fn put_translation(translation: &Translation, output: &mut [u8]) -> u64 {
    let bytes = translation.encode();
    output[..bytes.len()].copy_from_slice(&bytes);
    bytes.len() as u64
}
