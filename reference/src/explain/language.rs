//! Faults of languages.

use super::piece::Local;
use super::{Fault, Piece, Spot};
use crate::field::two_bytes;
use crate::language::{bit, Language, ARGUMENTS, CLASS_TAG, KINDS, LANGUAGE_LIMIT, PRODUCTION_TAG};
use crate::outcome::Refusal;

/// Looks for any fault.
pub fn check(piece: &Piece) -> Result<(), Fault> {
    piece.limit(LANGUAGE_LIMIT)?;
    check_fields(piece)?;
    piece.check_order()?;
    check_clash(piece)
}

/// Looks for a broken field.
pub fn check_fields(piece: &Piece) -> Result<(), Fault> {
    piece.walk().try_for_each(|spot| language_entry(piece, &spot?))
}

/// Refuses a field that is neither a class nor a production.
pub(crate) fn language_entry(piece: &Piece, spot: &Spot) -> Result<(), Fault> {
    let local = match spot.tag {
        CLASS_TAG => class_fault(spot.contents),
        PRODUCTION_TAG => production_fault(spot.contents),
        tag => Some((0, format!("a language has fields 11 and 12, and this is {tag:02X}"))),
    };
    local.map_or(Ok(()), |local| Err(piece.fault_in(spot, local)))
}

/// What is wrong with the contents of a field 11.
fn class_fault(contents: &[u8]) -> Option<Local> {
    let (kind, low, high, step) = match *contents {
        [kind, a, b, c, d] => (kind, two_bytes(a, b), two_bytes(c, d), 1),
        [kind, a, b, c, d, e, f] => (kind, two_bytes(a, b), two_bytes(c, d), two_bytes(e, f)),
        _ => {
            let length = contents.len();
            return Some((1, format!("a token class has length 5 or 7, not {length}")));
        }
    };
    let falls = || (4, format!("the lowest value {low} is above the highest {high}"));
    kind_fault(3, kind)
        .or_else(|| (low > high).then(falls))
        .or_else(|| (step == 0).then(|| (8, "the step is 0".to_string())))
}

/// What is wrong with the contents of a field 12.
fn production_fault(contents: &[u8]) -> Option<Local> {
    let (least, most) = (2, 2 + ARGUMENTS);
    match contents {
        [result, _, arguments @ ..] if arguments.len() <= ARGUMENTS => {
            let mut arguments = arguments.iter().enumerate();
            let argument = |(place, kind): (usize, &u8)| kind_fault(5 + place, *kind);
            kind_fault(3, *result).or_else(|| arguments.find_map(argument))
        }
        _ => {
            let length = contents.len();
            Some((1, format!("a production has length {least} to {most}, not {length}")))
        }
    }
}

/// What is wrong with a kind at a place of a field.
pub fn kind_fault(place: usize, kind: u8) -> Option<Local> {
    (usize::from(kind) >= KINDS).then(|| (place, format!("kind {kind} is above {}", KINDS - 1)))
}

/// Refuses a kind that is both a class and a result.
pub fn check_clash(piece: &Piece) -> Result<(), Fault> {
    let spots = piece.spots();
    let class =
        |kind: u8| spots.iter().find(|spot| spot.tag == CLASS_TAG && spot.contents[0] == kind);
    let productions = spots.iter().filter(|spot| spot.tag == PRODUCTION_TAG);
    let clash = productions.filter_map(|spot| Some((spot, class(spot.contents[0])?))).next();
    clash.map_or(Ok(()), |(spot, class)| {
        let kind = spot.contents[0];
        let what = format!(
            "kind {kind} is the result of {}, and a token class at byte {}",
            spot.name(),
            class.at
        );
        Err(piece.fault(Refusal::Clash, spot.at, what))
    })
}

/// What a kind is in a language, for a sentence.
pub fn kind_in(language: &Language, kind: u8) -> String {
    let class = language.classes.iter().find(|class| class.kind == kind);
    let is = |kinds: u32| kinds & bit(kind) != 0;
    match class {
        Some(class) => format!("kind {kind} ({})", class.range()),
        None if is(language.result_kinds()) => format!("kind {kind}, which has productions"),
        None if is(language.kinds()) => format!("kind {kind}, which is undefined"),
        None => format!("kind {kind}, which is not in it"),
    }
}
