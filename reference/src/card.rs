//! Viewers' cards, and plans masked by them: a block of a kind that is not on the card is one byte.

use crate::field::Fields;
use crate::grammar::Grammar;
use crate::index::put_result;
use crate::language::{bit, check_kind, read_language, Kinds, Language};
use crate::outcome::{require, Outcome, Refusal};
use crate::tree::{read_tree, root_kind, tree_end, Nothing};

pub const CARD_TAG: u8 = 0x27;
/// What stands for a hidden block.
pub const HIDDEN: u8 = 0xFF;

/// Reads a card: one field 27 and nothing else, whose contents are kinds by rising number.
pub fn read_card(card: &[u8]) -> Result<Kinds, Refusal> {
    let mut fields = Fields::new(card);
    let field = fields.next().ok_or(Refusal::Broken)??;
    require(field.tag == CARD_TAG && fields.next().is_none(), Refusal::Broken)?;
    field.contents.iter().try_for_each(|&kind| check_kind(kind).map(|_| ()))?;
    let rising = field.contents.windows(2).all(|pair| pair[0] < pair[1]);
    require(rising, Refusal::Order)?;
    Ok(field.contents.iter().fold(0, |kinds, &kind| kinds | bit(kind)))
}

/// Reads a language and a card, or gives the lower of the two refusals.
pub fn read_language_and_card(language: &[u8], card: &[u8]) -> Result<(Language, Kinds), Refusal> {
    match (read_language(language), read_card(card)) {
        (Ok(language), Ok(kinds)) => Ok((language, kinds)),
        (Err(one), Err(other)) if (other as u32) < one as u32 => Err(other),
        (Err(reason), _) | (_, Err(reason)) => Err(reason),
    }
}

/// Masks a legal tree.
struct Masker<'a> {
    grammar: &'a Grammar<'a>,
    seen: Kinds,
    tree: &'a [u8],
    masked: Vec<u8>,
}

impl Masker<'_> {
    /// Appends the masked tree of a kind at a place, and gives where the tree ends.
    fn put(&mut self, kind: u8, start: usize) -> usize {
        if self.seen & bit(kind) == 0 {
            self.masked.push(HIDDEN);
            return tree_end(self.grammar, self.tree, kind, start);
        }
        if self.grammar.class(kind).is_some() {
            self.masked.extend_from_slice(&self.tree[start..start + 2]);
            return start + 2;
        }
        let place = self.grammar.place(kind, self.tree[start]).expect("a legal tree");
        self.masked.push(self.tree[start]);
        let arguments = self.grammar.production(place).arguments();
        arguments.iter().fold(start + 1, |place, &argument| self.put(argument, place))
    }
}

/// A legal tree as one sees it who may see these kinds.
pub fn masked(grammar: &Grammar, seen: Kinds, root: u8, tree: &[u8]) -> Vec<u8> {
    let mut masker = Masker { grammar, seen, tree, masked: Vec::with_capacity(tree.len()) };
    masker.put(root, 0);
    masker.masked
}

/// Masks a tree of the root kind by a card.
pub fn mask(language: &[u8], root: u32, card: &[u8], tree: &[u8], output: &mut [u8]) -> Outcome {
    write_mask(language, root, card, tree, output).into()
}

/// The tests of `mask` in order, and then its result.
fn write_mask(
    language: &[u8],
    root: u32,
    card: &[u8],
    tree: &[u8],
    output: &mut [u8],
) -> Result<u64, Refusal> {
    let (language, seen) = read_language_and_card(language, card)?;
    let root = root_kind(&language, root)?;
    let grammar = Grammar::new(&language);
    read_tree(&grammar, root, tree, Nothing, ())?;
    put_result(&masked(&grammar, seen, root, tree), output)
}
