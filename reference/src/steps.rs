//! A join taken apart into the steps that run one after the other.

use crate::body::{MAPPING_TAG, NUMBERED_MAPPING_TAG};
use crate::code::{symbols, Symbol};
use crate::explain::{pack_parts, read_term, translation_pieces, Sign, Spot};
use crate::field::HEADER;
use crate::files::field;
use crate::pack::TERM_TAG;
use crate::plans::{self, Node, Sort};
use crate::translation::{read_translation, Translation};

/// One of the translations that a join runs in turn.
#[derive(Clone, Debug, PartialEq, Eq)]
pub struct Step {
    /// The term of the step, with the lets that stand around it.
    pub term: Vec<u8>,
    /// The pack with that term as its field 32.
    pub pack: Vec<u8>,
    /// The number by which the step runs.
    pub number: u32,
}

/// How many numbers of a join go with each of its second operand.
const PAIRED_NUMBERS: u32 = 16;

/// The steps of a pack's term in the order in which they run: those of a join's second operand,
/// then those of its first, with the lets around the join taken into each. A term that is no join
/// is one step. A number of a join is 16 times that of its second operand plus that of its first.
/// `None` if the pack has no term that can be read.
pub fn steps(pack: &[u8], number: u32) -> Option<Vec<Step>> {
    let parts = pack_parts(pack).ok()?;
    let sign = read_term(&parts.term, parts.languages.len(), parts.bodies.len()).ok()?;
    let before = &pack[..parts.term.start() - HEADER];
    let terms = terms_in_turn(pack, &sign, number, &[]).into_iter();
    let step = |(term, number): (Vec<u8>, u32)| {
        let pack = [before, &field(TERM_TAG, &term)].concat();
        Step { term, pack, number }
    };
    Some(terms.map(step).collect())
}

/// The terms of the steps with their numbers, each term behind the bytes of the lets around it.
fn terms_in_turn(pack: &[u8], sign: &Sign, number: u32, lets: &[u8]) -> Vec<(Vec<u8>, u32)> {
    match (sign.sign, &sign.operands[..]) {
        (0x54, [first, second]) => {
            let before = terms_in_turn(pack, second, number / PAIRED_NUMBERS, lets);
            let behind = terms_in_turn(pack, first, number % PAIRED_NUMBERS, lets);
            [before, behind].concat()
        }
        (0x56 | 0x57, [value, within]) => {
            terms_in_turn(pack, within, number, &[lets, &pack[sign.at..value.end]].concat())
        }
        _ => vec![([lets, &pack[sign.at..sign.end]].concat(), number)],
    }
}

/// A sign of a pack's term, in the order in which the term is written.
#[derive(Clone, Debug, PartialEq, Eq)]
pub struct Valued {
    pub depth: usize,
    pub sign: u8,
    /// What the sign stands for.
    pub meaning: String,
    /// Whether its value is a language.
    pub language: bool,
    /// How many signs, this one too, are worked out up to its own value.
    pub turn: usize,
    /// A pack that reduces to the value, or for a language to its identity.
    pub pack: Vec<u8>,
}

/// The signs of a pack's term; `None` if the pack has no term that can be read.
pub fn signs(pack: &[u8]) -> Option<Vec<Valued>> {
    let parts = pack_parts(pack).ok()?;
    let sign = read_term(&parts.term, parts.languages.len(), parts.bodies.len()).ok()?;
    let before = &pack[..parts.term.start() - HEADER];
    let mut signs = Signs { pack, before, list: vec![], turns: 0 };
    signs.add(&sign, 0, &[]);
    Some(signs.list)
}

/// Gathers the signs of a term.
struct Signs<'a> {
    pack: &'a [u8],
    before: &'a [u8],
    list: Vec<Valued>,
    turns: usize,
}

impl Signs<'_> {
    /// Adds a sign at a depth, behind the bytes of the lets around it, each for a translation.
    fn add(&mut self, sign: &Sign, depth: usize, lets: &[u8]) {
        let language = sign.sign < TRANSLATION_SIGNS;
        let identity: &[u8] = if language { &[IDENTITY_SIGN] } else { &[] };
        let term = [lets, identity, &self.pack[sign.at..sign.end]].concat();
        let pack = [self.before, &field(TERM_TAG, &term)].concat();
        let place = self.list.len();
        let (meaning, sign_byte) = (sign.meaning(), sign.sign);
        self.list.push(Valued { depth, sign: sign_byte, meaning, language, turn: 0, pack });
        let is_let = matches!(sign.sign, 0x46 | 0x47 | 0x56 | 0x57);
        for (number, operand) in sign.operands.iter().enumerate() {
            let inside = match is_let && number == 1 {
                true => {
                    let mut value = self.pack[sign.at..sign.operands[0].end].to_vec();
                    value[0] |= TRANSLATION_SIGNS;
                    [lets, &value].concat()
                }
                false => lets.to_vec(),
            };
            self.add(operand, depth + 1, &inside);
        }
        self.turns += 1;
        self.list[place].turn = self.turns;
    }
}

/// Signs from this one on are terms for translations.
const TRANSLATION_SIGNS: u8 = 0x50;
/// The sign of an identity.
const IDENTITY_SIGN: u8 = 0x55;

/// The kind that a translation maps a kind to by a number.
pub fn mapped_kind(translation: &[u8], kind: u32, number: u32) -> Option<u32> {
    let pieces = translation_pieces(translation).ok()?;
    let mapped = |spot: &Spot| match (spot.tag, spot.contents) {
        (MAPPING_TAG, &[kind, target]) => Some(([kind, 0].map(u32::from), target)),
        (NUMBERED_MAPPING_TAG, &[kind, number, target]) => {
            Some(([kind, number].map(u32::from), target))
        }
        _ => None,
    };
    let spots = pieces.body.spots();
    let found = spots.iter().filter_map(mapped).find(|(key, _)| *key == [kind, number]);
    found.map(|(_, target)| u32::from(target))
}

/// A clause that a run applies: the path to the production that it is for, and what it is.
#[derive(Clone, Debug, PartialEq, Eq)]
pub struct Applied {
    pub path: Vec<usize>,
    pub kind: u8,
    pub name: u8,
    pub number: u8,
}

/// The clauses that the run of a tree applies, in the order in which their codes are written, at most
/// so many; their number is the cost of the run.
pub fn applied(
    translation: &[u8],
    root: u32,
    number: u32,
    tree: &[u8],
    most: usize,
) -> Option<Vec<Applied>> {
    let translation_read = read_translation(translation).ok()?;
    let node = plans::read_deep(languages(translation)?.0, root, tree)?;
    let mut list = vec![];
    let mut path = vec![];
    put_applied(&translation_read, &node, number as u8, most, &mut path, &mut list);
    Some(list)
}

/// Appends the clauses that the run of a node by a number applies.
fn put_applied(
    translation: &Translation,
    node: &Node,
    number: u8,
    most: usize,
    path: &mut Vec<usize>,
    list: &mut Vec<Applied>,
) {
    let Sort::Production(name) = node.sort else { return };
    if list.len() == most {
        return;
    }
    let (kind, key) = (node.kind, u16::from_be_bytes([node.kind, name]));
    list.push(Applied { path: path.clone(), kind, name, number });
    let mut clauses = translation.body.clauses.iter();
    let Some(clause) = clauses.find(|clause| clause.place() == (key, number)) else { return };
    for symbol in symbols(clause.code) {
        if let Symbol::Argument(argument, by) = symbol {
            let place = usize::from(argument);
            path.push(place + 1);
            put_applied(translation, &node.arguments[place], by, most, path, list);
            path.pop();
        }
    }
}

/// The source and the target of a translation.
pub fn languages(translation: &[u8]) -> Option<(&[u8], &[u8])> {
    let pieces = translation_pieces(translation).ok()?;
    Some((pieces.source.bytes, pieces.target.bytes))
}

#[cfg(test)]
mod tests {
    use super::*;
    use crate::examples::{language_c, sum};
    use crate::files::pack;

    /// The terms of the steps of a pack with the language C and this term.
    fn terms(term: &[u8]) -> Vec<Vec<u8>> {
        let steps = steps(&pack(&[language_c()], &[], term), 0).expect("the term can be read");
        steps.into_iter().map(|step| step.term).collect()
    }

    const IDENTITY: [u8; 3] = [0x55, 0x40, 0];
    const VARIABLE: [u8; 2] = [0x51, 1];

    #[test]
    fn a_term_that_is_no_join_is_one_step() {
        assert_eq!(terms(&IDENTITY), [IDENTITY]);
        assert_eq!(steps(&[], 0), None);
    }

    #[test]
    fn nested_joins_are_taken_apart_in_the_order_of_the_runs() {
        let inner = [&[0x54][..], &IDENTITY, &VARIABLE].concat();
        let first = [&[0x54][..], &inner, &VARIABLE].concat();
        assert_eq!(terms(&first), [&VARIABLE[..], &VARIABLE, &IDENTITY]);
        let second = [&[0x54][..], &VARIABLE, &inner].concat();
        assert_eq!(terms(&second), [&VARIABLE[..], &IDENTITY, &VARIABLE]);
    }

    #[test]
    fn lets_are_taken_into_each_step() {
        let join = [&[0x54][..], &VARIABLE, &IDENTITY].concat();
        let with_let = |term: &[u8]| [&[0x57, 1][..], &IDENTITY, term].concat();
        assert_eq!(terms(&with_let(&join)), [with_let(&IDENTITY), with_let(&VARIABLE)]);
    }

    #[test]
    fn a_number_of_a_join_is_shared_out() {
        let numbers = |term: &[u8], number| -> Vec<u32> {
            let steps = steps(&pack(&[language_c()], &[], term), number).unwrap_or_default();
            steps.into_iter().map(|step| step.number).collect()
        };
        let join = [&[0x54][..], &VARIABLE, &IDENTITY].concat();
        assert_eq!(numbers(&IDENTITY, 35), [35]);
        assert_eq!(numbers(&join, 35), [2, 3]);
        assert_eq!(numbers(&[&[0x54][..], &join, &IDENTITY].concat(), 35), [2, 0, 3]);
    }

    #[test]
    fn a_step_is_the_pack_with_its_term() {
        let join = [&[0x54][..], &VARIABLE, &IDENTITY].concat();
        let steps = steps(&pack(&[language_c()], &[], &join), 0).expect("the term can be read");
        assert_eq!(steps[0].pack, pack(&[language_c()], &[], &IDENTITY));
    }

    #[test]
    fn the_clauses_that_a_run_applies() {
        let list = applied(&sum(), 1, 0, &[4, 1, 0, 5], 9).expect("a run");
        let told: Vec<_> = list.iter().map(|one| (one.path.clone(), one.kind, one.name)).collect();
        assert_eq!(told, [(vec![], 1, 4), (vec![1], 1, 1), (vec![1], 1, 1)]);
        assert_eq!(applied(&sum(), 1, 0, &[4, 1, 0, 5], 2).map(|list| list.len()), Some(2));
        let run = crate::run(&sum(), 1, 0, &[4, 1, 0, 5], &mut [0; 7]);
        assert_eq!(run.cost, 3);
    }

    #[test]
    fn the_signs_of_a_term_with_their_turns() {
        let join = [&[0x54][..], &VARIABLE, &IDENTITY].concat();
        let term = [&[0x57, 1][..], &IDENTITY, &join].concat();
        let list = signs(&pack(&[language_c()], &[], &term)).expect("the term can be read");
        let told: Vec<_> = list.iter().map(|sign| (sign.depth, sign.sign, sign.turn)).collect();
        let expected = [
            (0, 0x57, 7),
            (1, 0x55, 2),
            (2, 0x40, 1),
            (1, 0x54, 6),
            (2, 0x51, 3),
            (2, 0x55, 5),
            (3, 0x40, 4),
        ];
        assert_eq!(told, expected);
        let reduced = |pack: &[u8]| crate::reduce(pack, &mut [0; 65_536], &mut [0; 4096]).number();
        assert!(list.iter().all(|sign| reduced(&sign.pack) == 0));
    }

    #[test]
    fn kinds_are_mapped_by_the_body() {
        assert_eq!(mapped_kind(&sum(), 2, 0), Some(2));
        assert_eq!(mapped_kind(&sum(), 2, 1), None);
        assert_eq!(mapped_kind(&sum(), 9, 0), None);
    }
}
