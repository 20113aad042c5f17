//! Terms: sixteen signs in prefix form, eight for languages and eight for translations.

/// A term has at most this many levels.
pub const TERM_LEVELS: usize = 12;
/// Variables of each sort are the numbers below this one.
pub const VARIABLES: usize = 16;

/// A term for a language.
#[derive(Debug)]
pub enum LanguageTerm {
    Constant(usize),
    Variable(usize),
    Without(Box<LanguageTerm>, Box<LanguageTerm>),
    Sum(Box<LanguageTerm>, Box<LanguageTerm>),
    Source(Box<TranslationTerm>),
    Target(Box<TranslationTerm>),
    LetLanguage(usize, Box<LanguageTerm>, Box<LanguageTerm>),
    LetTranslation(usize, Box<TranslationTerm>, Box<LanguageTerm>),
}

/// A term for a translation.
#[derive(Debug)]
pub enum TranslationTerm {
    Body(Box<LanguageTerm>, Box<LanguageTerm>, usize),
    Variable(usize),
    Without(Box<TranslationTerm>, Box<LanguageTerm>),
    Sum(Box<TranslationTerm>, Box<TranslationTerm>),
    Join(Box<TranslationTerm>, Box<TranslationTerm>),
    Identity(Box<LanguageTerm>),
    LetLanguage(usize, Box<LanguageTerm>, Box<TranslationTerm>),
    LetTranslation(usize, Box<TranslationTerm>, Box<TranslationTerm>),
}

/// Decodes a term that may name so many languages and bodies.
struct Decoder<'a> {
    rest: &'a [u8],
    languages: usize,
    bodies: usize,
}

impl Decoder<'_> {
    /// The next byte.
    fn byte(&mut self) -> Option<u8> {
        let (&first, rest) = self.rest.split_first()?;
        self.rest = rest;
        Some(first)
    }

    /// The next byte as a number below `limit`.
    fn number(&mut self, limit: usize) -> Option<usize> {
        let number = usize::from(self.byte()?);
        (number < limit).then_some(number)
    }

    /// A language term with at most `levels` levels.
    fn language(&mut self, levels: usize) -> Option<Box<LanguageTerm>> {
        use LanguageTerm::*;
        let below = levels.checked_sub(1)?;
        Some(Box::new(match self.byte()? {
            0x40 => Constant(self.number(self.languages)?),
            0x41 => Variable(self.number(VARIABLES)?),
            0x42 => Without(self.language(below)?, self.language(below)?),
            0x43 => Sum(self.language(below)?, self.language(below)?),
            0x44 => Source(self.translation(below)?),
            0x45 => Target(self.translation(below)?),
            0x46 => {
                LetLanguage(self.number(VARIABLES)?, self.language(below)?, self.language(below)?)
            }
            0x47 => LetTranslation(
                self.number(VARIABLES)?,
                self.translation(below)?,
                self.language(below)?,
            ),
            _ => return None,
        }))
    }

    /// A translation term with at most `levels` levels.
    fn translation(&mut self, levels: usize) -> Option<Box<TranslationTerm>> {
        use TranslationTerm::*;
        let below = levels.checked_sub(1)?;
        Some(Box::new(match self.byte()? {
            0x50 => Body(self.language(below)?, self.language(below)?, self.number(self.bodies)?),
            0x51 => Variable(self.number(VARIABLES)?),
            0x52 => Without(self.translation(below)?, self.language(below)?),
            0x53 => Sum(self.translation(below)?, self.translation(below)?),
            0x54 => Join(self.translation(below)?, self.translation(below)?),
            0x55 => Identity(self.language(below)?),
            0x56 => LetLanguage(
                self.number(VARIABLES)?,
                self.language(below)?,
                self.translation(below)?,
            ),
            0x57 => LetTranslation(
                self.number(VARIABLES)?,
                self.translation(below)?,
                self.translation(below)?,
            ),
            _ => return None,
        }))
    }
}

/// Decodes bytes that are exactly one translation term.
pub fn decode_term(bytes: &[u8], languages: usize, bodies: usize) -> Option<TranslationTerm> {
    let mut decoder = Decoder { rest: bytes, languages, bodies };
    let term = decoder.translation(TERM_LEVELS)?;
    decoder.rest.is_empty().then_some(*term)
}
