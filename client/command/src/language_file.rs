//! A language that is given by itself, or as the source or the target of a translation or a pack.

use crate::arguments::Call;
use crate::input::file_name;
use crate::job::{operand, sort_of, Refused, Translator};
use crate::options::Sort;
use crate::{Failure, Streams};
use algebra::PACK_BYTES;
use reference::explain::{self, Fault};
use reference::steps::languages;
use std::borrow::Cow;

/// A file from which a language is taken.
pub struct LanguageFile {
    /// What the file is called.
    pub name: String,
    of: Of,
}

/// What the language is.
enum Of {
    File(Vec<u8>),
    Source(Translator),
    Target(Translator),
}

impl LanguageFile {
    /// Reads the first operand, which is told by its first byte unless the options say what it is.
    pub fn load(call: &Call, streams: &mut Streams) -> Result<LanguageFile, Failure> {
        LanguageFile::load_at(call, 0, call.options.sort, streams)
    }

    /// Reads the operand at a place, of a sort if one is given.
    pub fn load_at(
        call: &Call,
        place: usize,
        sort: Option<Sort>,
        streams: &mut Streams,
    ) -> Result<LanguageFile, Failure> {
        let (name, target) = (file_name(&call.operands[place]), call.options.target);
        let file = operand(call, place, PACK_BYTES, streams)?;
        let sort = sort.or(sort_of(&file));
        let of = match sort {
            Some(Sort::Translation | Sort::Pack) if target => {
                Of::Target(Translator::new(file, sort))
            }
            Some(Sort::Translation | Sort::Pack) => Of::Source(Translator::new(file, sort)),
            _ if target => {
                let what = format!("{name} is no translation and no pack, as --target needs");
                return Err(call.misuse(&what));
            }
            _ => Of::File(file),
        };
        Ok(LanguageFile { name, of })
    }

    /// The language, by the library; a refusal of the translation or pack names its file.
    pub fn language(&self) -> Result<Cow<'_, [u8]>, Refused> {
        let named = |refusal| Refused::of_files(refusal, vec![self.name.clone()]);
        match &self.of {
            Of::File(language) => Ok(Cow::Borrowed(language)),
            Of::Source(of) => Ok(Cow::Owned(source_of(&of.checked().map_err(named)?))),
            Of::Target(of) => Ok(Cow::Owned(target_of(&of.checked().map_err(named)?))),
        }
    }

    /// The language, by the second implementation, or the fault of the translation or pack.
    pub fn explained(&self) -> Result<Cow<'_, [u8]>, Fault> {
        let translator = match &self.of {
            Of::File(language) => return Ok(Cow::Borrowed(language)),
            Of::Source(of) | Of::Target(of) => of,
        };
        let translation = translator.explained()?;
        if let Some(fault) = explain::translation(&translation) {
            return Err(fault);
        }
        let source = matches!(self.of, Of::Source(_));
        Ok(Cow::Owned(if source { source_of(&translation) } else { target_of(&translation) }))
    }
}

/// The source of a translation that is accepted.
pub fn source_of(translation: &[u8]) -> Vec<u8> {
    languages(translation).unwrap_or_default().0.to_vec()
}

/// The target of a translation that is accepted.
pub fn target_of(translation: &[u8]) -> Vec<u8> {
    languages(translation).unwrap_or_default().1.to_vec()
}
