//! Faults of viewers' cards, and of masked plans.

use super::{language, translation, tree, Fault, Piece};
use crate::card::{masked, CARD_TAG};
use crate::field::{two_bytes, HEADER};
use crate::grammar::Grammar;
use crate::language::{bit, Kinds, KINDS};
use crate::outcome::Refusal;

/// The kinds that a card without a fault shows.
pub fn kinds(card: &[u8]) -> Kinds {
    card.iter().skip(HEADER).fold(0, |kinds, &kind| kinds | bit(kind))
}

/// Looks for a fault of a card.
pub fn check(card: &[u8]) -> Result<(), Fault> {
    let kinds = card_kinds(card)?;
    let Some(place) = kinds.windows(2).position(|pair| pair[0] >= pair[1]) else { return Ok(()) };
    let what = match (kinds[place], kinds[place + 1]) {
        (one, other) if one == other => format!("kind {one} stands twice"),
        (one, other) => format!("kind {other} stands behind kind {one}"),
    };
    Err(Piece::whole("card", card).fault(Refusal::Order, HEADER + 1 + place, what))
}

/// The kinds of a card that has no broken field.
pub(crate) fn card_kinds(card: &[u8]) -> Result<&[u8], Fault> {
    let broken = |(at, what)| Piece::whole("card", card).fault(Refusal::Broken, at, what);
    let kinds = check_field(card).map_err(broken)?;
    match kinds.iter().position(|kind| usize::from(*kind) >= KINDS) {
        None => Ok(kinds),
        Some(place) => {
            let what = format!("kind {} is above {}", kinds[place], KINDS - 1);
            Err(broken((HEADER + place, what)))
        }
    }
}

/// The contents of a card that is one whole field 27, or where it is not and why.
fn check_field(card: &[u8]) -> Result<&[u8], (usize, String)> {
    match card {
        [tag, ..] if *tag != CARD_TAG => Err((0, format!("field {tag:02X} is none of a card"))),
        [_, high, low, contents @ ..] => {
            let (stated, left) = (usize::from(two_bytes(*high, *low)), contents.len());
            if stated > left {
                let what = format!("field 27 states the length {stated}, and {left} is left");
                return Err((1, what));
            }
            match left - stated {
                0 => Ok(contents),
                more => Err((HEADER + stated, format!("more bytes follow field 27: {more}"))),
            }
        }
        _ => Err((card.len(), "the card ends before its field 27 does".to_string())),
    }
}

/// Looks for a fault of a language and a card, and gives the one of the lower number.
pub fn check_with_language(bytes: &[u8], card: &[u8]) -> Result<(), Fault> {
    let faults = [language::check(&Piece::whole("language", bytes)), check(card)];
    let faults = faults.into_iter().filter_map(Result::err);
    faults.min_by_key(|fault| fault.reason as u32).map_or(Ok(()), Err)
}

/// Looks for a fault of a language, a root, a card and a tree, and of the length of an output for
/// the masked plan.
pub fn check_mask(
    bytes: &[u8],
    root: u32,
    card: &[u8],
    tree: &[u8],
    output: usize,
) -> Result<(), Fault> {
    check_with_language(bytes, card)?;
    tree::check(bytes, root, tree)?;
    let language = translation::decoded(&Piece::whole("language", bytes))?;
    let length = masked(&Grammar::new(&language), kinds(card), root as u8, tree).len();
    if length <= output {
        return Ok(());
    }
    let what = format!("its length is {output}, and that of the masked plan {length}");
    Err(Piece::whole("output", &[]).fault_somewhere(Refusal::Output, what))
}

#[cfg(test)]
mod tests {
    use super::*;

    #[test]
    fn faults_of_cards() {
        let number = |card: &[u8]| check(card).map_or_else(|fault| fault.reason as u32, |()| 0);
        for card in [&[0x27, 0, 0][..], &[0x27, 0, 2, 1, 2], &[0x27, 0, 1, 31]] {
            assert_eq!(number(card), 0, "{card:?}");
        }
        let broken = [&[][..], &[0x27], &[0x27, 0], &[0x26, 0, 0], &[0x27, 0, 1], &[0x27, 0, 0, 1]];
        for card in broken.into_iter().chain([&[0x27, 0, 2, 32, 1][..]]) {
            assert_eq!(number(card), 2, "{card:?}");
        }
        for card in [[0x27, 0, 2, 2, 1], [0x27, 0, 2, 1, 1]] {
            assert_eq!(number(&card), 3, "{card:?}");
        }
    }
}
