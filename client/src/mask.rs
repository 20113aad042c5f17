//! Viewers' cards, and plans masked by them.

use crate::output::{accepted_length, in_output};
use crate::{raw, Card, Kind, Language, Refusal, Tree, KINDS};

/// The tag of a card's field.
const CARD_TAG: u8 = 0x27;

/// The bytes of the card with which some kinds are seen, by rising number.
///
/// # Errors
///
/// What is no card is refused as the library would: a number above 31 with 2, as are more than 32
/// of them, and else numbers that do not rise with 3.
///
/// ```
/// use algebra::{card, Kind, Refusal};
///
/// assert_eq!(card([Kind(1), Kind(2)]), Ok(vec![0x27, 0, 2, 1, 2]));
/// // A card that shows nothing.
/// assert_eq!(card([]), Ok(vec![0x27, 0, 0]));
/// assert_eq!(card([Kind(2), Kind(1)]), Err(Refusal::OutOfOrder));
/// assert_eq!(card([Kind(1), Kind(1)]), Err(Refusal::OutOfOrder));
/// assert_eq!(card((0..=255).map(Kind)), Err(Refusal::BrokenField));
/// ```
pub fn card(kinds: impl IntoIterator<Item = Kind>) -> Result<Vec<u8>, Refusal> {
    // One more than there may be, so that it shows.
    let kinds: Vec<Kind> = kinds.into_iter().take(KINDS + 1).collect();
    let known = kinds.iter().all(|kind| (kind.0 as usize) < KINDS);
    if kinds.len() > KINDS || !known {
        return Err(Refusal::BrokenField);
    }
    if !kinds.windows(2).all(|pair| pair[0] < pair[1]) {
        return Err(Refusal::OutOfOrder);
    }
    let head = [CARD_TAG, 0, kinds.len() as u8];
    Ok(head.into_iter().chain(kinds.iter().map(|kind| kind.0 as u8)).collect())
}

/// Masks a tree of the root kind by a card: each block of a kind that is not on the card, root and
/// tokens included, is the one byte FF. The masked plan is put at the start of the output; gives its
/// length.
///
/// Two plans that agree outside of hidden blocks are masked alike. Behind the masked plan, and after
/// a refusal, the output is as it was.
///
/// # Errors
///
/// Refusals: 1 to 4, 14 to 17.
///
/// ```
/// use algebra::write::{production, token};
/// use algebra::{card, mask, Card, Kind, Language, Refusal, Tree, HIDDEN_BYTE};
///
/// const BLOCK: Kind = Kind(1);
/// const ROW: u8 = 1;
/// let strap = Language(include_bytes!("../../examples/strap/strap.language"));
///
/// // The card shows blocks, and no minutes.
/// let blocks = card([BLOCK])?;
/// let row = production(ROW, [token(5)]);
/// let mut output = [0; 3];
/// assert_eq!(mask(strap, BLOCK, Card(&blocks), Tree(&row), &mut output), Ok(2));
/// assert_eq!(output, [ROW, HIDDEN_BYTE, 0]);
/// // A tree is no card.
/// let refused = mask(strap, BLOCK, Card(&row), Tree(&row), &mut output);
/// assert_eq!(refused, Err(Refusal::BrokenField));
/// # Ok::<(), Refusal>(())
/// ```
pub fn mask(
    language: Language,
    root: Kind,
    card: Card,
    tree: Tree,
    output: &mut [u8],
) -> Result<usize, Refusal> {
    accepted_length(raw::mask(language.0, root.0, card.0, tree.0, output))
}

/// Masks a tree of the root kind by a card, with an output that is allocated.
///
/// # Errors
///
/// Refusals: 1 to 4, 14 to 16.
///
/// What a cox may see of an evening, and not the rates, which are for rower and coach:
///
/// ```
/// use algebra::{mask_to_vec, Card, Kind, Language, Tree, HIDDEN_BYTE};
///
/// const BLOCK: Kind = Kind(1);
/// let crew = Language(include_bytes!("../../examples/cox/crew.language"));
/// let card = Card(include_bytes!("../../examples/cox/cox.card"));
/// let evening = Tree(include_bytes!("../../examples/cox/evening.plan"));
/// let harder = Tree(include_bytes!("../../examples/cox/harder.plan"));
///
/// let masked = mask_to_vec(crew, BLOCK, card, evening)?;
/// assert!(masked.contains(&HIDDEN_BYTE));
/// // An evening that differs in the rates alone looks the same.
/// assert_eq!(mask_to_vec(crew, BLOCK, card, harder)?, masked);
/// # Ok::<(), algebra::Refusal>(())
/// ```
pub fn mask_to_vec(
    language: Language,
    root: Kind,
    card: Card,
    tree: Tree,
) -> Result<Vec<u8>, Refusal> {
    // A block has a byte or more, and one byte where it is hidden.
    in_output(tree.0.len(), |output| mask(language, root, card, tree, output))
}
