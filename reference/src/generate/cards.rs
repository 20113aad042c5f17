//! Viewers' cards, plans to be masked, and pairs of plans that agree outside hidden blocks.

use super::damage::damage_bytes;
use super::indexes::{is_legal, room_for};
use super::long_trees::long_tree_case;
use super::random::Random;
use super::trees::{tree_case, Grower, TreeCase};
use crate::card::{masked, read_card};
use crate::files::card as card_file;
use crate::grammar::Grammar;
use crate::language::{bit, read_language, Kinds, Language, KINDS};
use crate::tree::{tree_end, TREE_LEVELS};

/// The input of a mask.
#[derive(Clone, Debug)]
pub struct MaskCase {
    pub language: Vec<u8>,
    pub root: u32,
    pub card: Vec<u8>,
    pub tree: Vec<u8>,
    pub output: usize,
}

/// One case in so many has a long tree.
const CASES_FOR_A_LONG_ONE: usize = 300;

/// The card with these kinds.
pub fn card_of(kinds: Kinds) -> Vec<u8> {
    let list: Vec<u8> = (0..KINDS as u8).filter(|&kind| kinds & bit(kind) != 0).collect();
    card_file(&list)
}

/// The kinds of a language in bytes; any kinds if it is refused.
fn kinds_of(random: &mut Random, language: &[u8]) -> Kinds {
    read_language(language).map_or(random.bits() as Kinds, |language| language.kinds())
}

/// Kinds to be seen of those in a language, sometimes with others: all but one or few, some, one or
/// none; so many of a hundred cards have them all.
fn seen_kinds(random: &mut Random, kinds: Kinds, all: usize) -> Kinds {
    let (one, other) = (random.bits() as Kinds, random.bits() as Kinds);
    let hidden = bit(random.below(KINDS) as u8) | bit(random.below(KINDS) as u8);
    if random.percent(all) {
        return random.pick(&[kinds, Kinds::MAX]);
    }
    match random.below(8) {
        0 => 0,
        1 => kinds & one & other,
        2 => kinds & one,
        3 => kinds & !hidden,
        4 => bit(random.below(KINDS) as u8),
        5 => one,
        _ => kinds & (one | other),
    }
}

/// Makes a card wrong, likely: broken, or out of order.
fn damage_card(random: &mut Random, card: &mut Vec<u8>) {
    match random.below(8) {
        0 => damage_bytes(random, card),
        1 => card.clear(),
        2 => card.push(random.byte()),
        3 => card[0] = random.pick(&[0x26, 0x28, 0x11]),
        4 => *card = card_file(&[&card[3..], &[random.pick(&[32, 255])]].concat()),
        5 => *card = [card.clone(), card.clone()].concat(),
        6 => *card = card_file(&[&card[3..], &[31, 31]].concat()),
        _ => *card = card_file(&[&[random.within(0..=31) as u8], &card[3..]].concat()),
    }
}

/// A card for a language; so many of a hundred show all of it, and so many are damaged.
pub fn card_for(random: &mut Random, language: &[u8], all: usize, damaged: usize) -> Vec<u8> {
    let kinds = kinds_of(random, language);
    let mut card = card_of(seen_kinds(random, kinds, all));
    if random.percent(damaged) {
        damage_card(random, &mut card);
    }
    card
}

/// The masked bytes of the tree of a case by a card, if both are accepted.
fn masked_by(case: &TreeCase, card: &[u8]) -> Option<Vec<u8>> {
    let (seen, legal) = (read_card(card).ok()?, is_legal(case));
    let language = read_language(&case.language).ok().filter(|_| legal)?;
    Some(masked(&Grammar::new(&language), seen, case.root as u8, &case.tree))
}

/// A language, a root, a card, a tree and an output length.
pub fn mask_case(random: &mut Random) -> MaskCase {
    let long = random.below(CASES_FOR_A_LONG_ONE) == 0;
    let case = if long { long_tree_case(random) } else { tree_case(random) };
    let card = card_for(random, &case.language, 20, 10);
    let exact = masked_by(&case, &card).map_or(9, |masked| masked.len());
    let output = room_for(random, exact);
    let TreeCase { language, root, tree } = case;
    MaskCase { language, root, card, tree, output }
}

/// Grows other trees in the place of hidden blocks.
struct Regrower<'a> {
    grammar: &'a Grammar<'a>,
    grower: Grower<'a>,
    seen: Kinds,
    tree: &'a [u8],
    plan: Vec<u8>,
}

impl Regrower<'_> {
    /// Appends the tree of a kind at a place, with hidden blocks grown anew within so many levels;
    /// gives where the tree ends.
    fn put(&mut self, random: &mut Random, kind: u8, start: usize, levels: usize) -> usize {
        if self.seen & bit(kind) == 0 {
            self.put_hidden(random, kind, levels);
            return tree_end(self.grammar, self.tree, kind, start);
        }
        if self.grammar.class(kind).is_some() {
            self.plan.extend_from_slice(&self.tree[start..start + 2]);
            return start + 2;
        }
        let place = self.grammar.place(kind, self.tree[start]).expect("a legal tree");
        self.plan.push(self.tree[start]);
        let arguments = self.grammar.production(place).arguments();
        let mut end = start + 1;
        for &argument in arguments {
            end = self.put(random, argument, end, levels - 1);
        }
        end
    }

    /// Appends some legal tree of a kind within so many levels.
    fn put_hidden(&mut self, random: &mut Random, kind: u8, levels: usize) {
        let heights = &self.grower.heights;
        let least = heights.least(kind).expect("the kind has a tree");
        let wanted = random.pick(&[least, least + 1, least + 3, levels]).min(levels);
        let height = heights.greatest(kind, wanted).expect("not below the least");
        self.grower.budget = 20;
        self.grower.grow(random, kind, height, &mut self.plan);
    }
}

/// Two plans that agree outside the blocks that a card hides, as masks with one output length.
pub fn mask_pair(random: &mut Random) -> Option<[MaskCase; 2]> {
    let case = mask_case(random);
    let seen = read_card(&case.card).ok()?;
    let MaskCase { language, root, tree, .. } = &case;
    let legal = TreeCase { language: language.clone(), root: *root, tree: tree.clone() };
    let language: Language = read_language(language).ok().filter(|_| is_legal(&legal))?;
    let grammar = Grammar::new(&language);
    let (grower, plan) = (Grower::new(&language), Vec::new());
    let mut regrower = Regrower { grammar: &grammar, grower, seen, tree, plan };
    regrower.put(random, *root as u8, 0, TREE_LEVELS);
    let tree = regrower.plan;
    Some([case.clone(), MaskCase { tree, ..case }])
}
