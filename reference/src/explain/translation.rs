//! Faults of translations.

use super::body::{self, Between};
use super::{language, Fault, Piece};
use crate::language::{Language, LANGUAGE_LIMIT};
use crate::outcome::Refusal;
use crate::translation::{
    read_translation, Translation, SOURCE_TAG, TARGET_TAG, TRANSLATION_LIMIT,
};

/// The parts of a translation.
pub(crate) struct Pieces<'a> {
    pub source: Piece<'a>,
    pub target: Piece<'a>,
    pub body: Piece<'a>,
}

/// Looks for any fault.
pub fn check(bytes: &[u8]) -> Result<(), Fault> {
    let pieces = translation_pieces(bytes)?;
    let Pieces { source, target, body } = &pieces;
    [source, target, body].into_iter().try_for_each(Piece::check_order)?;
    [source, target].into_iter().try_for_each(language::check_clash)?;
    let (source, target) = (decoded(source)?, decoded(target)?);
    Between::new(&source, &target, body).check()
}

/// A translation without a fault, decoded.
pub fn well_formed(bytes: &[u8]) -> Result<Translation, Fault> {
    check(bytes)?;
    read_translation(bytes).map_err(|reason| {
        let what = "the translation is not well formed".to_string();
        Piece::whole("translation", bytes).fault_somewhere(reason, what)
    })
}

/// Refuses a translation with any number but 0, where something needs 0 alone.
pub fn check_plain(translation: &Translation, what: &str) -> Result<(), Fault> {
    let Some(other) = translation.body.others.first() else { return Ok(()) };
    let (kind, number) = (other.kind, other.number);
    let what = format!("kind {kind} has number {number}, and {what} needs 0 alone");
    Err(Piece::whole("translation", &[]).fault_somewhere(Refusal::Number, what))
}

/// A language whose fields are whole.
pub fn decoded(piece: &Piece) -> Result<Language, Fault> {
    let draft = Language::decode(piece.bytes);
    let broken = |reason| piece.fault_somewhere(reason, "a field is broken".to_string());
    draft.map(|draft| draft.value).map_err(broken)
}

/// The parts of a translation that has no fault of length and no broken field.
pub(crate) fn translation_pieces(bytes: &[u8]) -> Result<Pieces<'_>, Fault> {
    let whole = Piece::whole("translation", bytes);
    whole.limit(TRANSLATION_LIMIT)?;
    whole.limit_stated(&[SOURCE_TAG, TARGET_TAG], LANGUAGE_LIMIT)?;
    let source = language_piece(&whole, 0, SOURCE_TAG, "source")?;
    let target = language_piece(&whole, source.end(), TARGET_TAG, "target")?;
    let body = whole.part(target.end(), &bytes[target.end()..], "body".to_string());
    body::check_fields(&body)?;
    Ok(Pieces { source, target, body })
}

/// The language in the field at a place, which must have the tag.
fn language_piece<'a>(
    whole: &Piece<'a>,
    at: usize,
    tag: u8,
    name: &str,
) -> Result<Piece<'a>, Fault> {
    let rest = whole.part(at, &whole.bytes[at..], name.to_string());
    let spot = rest.walk().next().unwrap_or_else(|| {
        Err(whole.fault(Refusal::Broken, at, format!("field {tag:02X} is missing")))
    })?;
    if spot.tag != tag {
        let what = format!("field {tag:02X} is needed, and this is {:02X}", spot.tag);
        return Err(whole.fault(Refusal::Broken, at, what));
    }
    let piece = whole.contents(&spot, name.to_string());
    language::check_fields(&piece)?;
    Ok(piece)
}
