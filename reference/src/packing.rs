//! Packs put together from files: each language, translation or pack becomes a term, and languages
//! and bodies that are equal stand once.

use crate::explain::{pack_parts, read_term, translation_pieces, Sign};
use crate::files::pack;
use crate::pack::{CONSTANTS, PACK_LIMIT};

/// The signs of a constant, of a translation with a body, and of a sum.
const CONSTANT: u8 = 0x40;
const BODY: u8 = 0x50;
const SUM: u8 = 0x53;

/// The constants of a pack that is put together.
#[derive(Clone, Debug, Default)]
pub struct Packing {
    languages: Vec<Vec<u8>>,
    bodies: Vec<Vec<u8>>,
}

/// The place of bytes in a list, to which they are added if they are not there.
fn place_in(list: &mut Vec<Vec<u8>>, bytes: &[u8]) -> u8 {
    let found = list.iter().position(|known| known == bytes);
    let place = found.unwrap_or_else(|| {
        list.push(bytes.to_vec());
        list.len() - 1
    });
    // A pack with more constants than it may have is told by `fits`.
    u8::try_from(place).unwrap_or(u8::MAX)
}

impl Packing {
    /// The term of a language.
    pub fn language(&mut self, bytes: &[u8]) -> Vec<u8> {
        vec![CONSTANT, place_in(&mut self.languages, bytes)]
    }

    /// The term of a translation, unless its fields are broken.
    pub fn translation(&mut self, bytes: &[u8]) -> Option<Vec<u8>> {
        let pieces = translation_pieces(bytes).ok()?;
        let (source, target) =
            (self.language(pieces.source.bytes), self.language(pieces.target.bytes));
        let body = place_in(&mut self.bodies, pieces.body.bytes);
        Some([vec![BODY], source, target, vec![body]].concat())
    }

    /// The term of a pack, with the numbers that its constants have here, unless it cannot be read.
    pub fn pack(&mut self, bytes: &[u8]) -> Option<Vec<u8>> {
        let parts = pack_parts(bytes).ok()?;
        let sign = read_term(&parts.term, parts.languages.len(), parts.bodies.len()).ok()?;
        let languages: Vec<u8> =
            parts.languages.iter().map(|of| place_in(&mut self.languages, of.bytes)).collect();
        let bodies: Vec<u8> =
            parts.bodies.iter().map(|of| place_in(&mut self.bodies, of.bytes)).collect();
        let mut term = vec![];
        renumber(&sign, &languages, &bodies, &mut term);
        Some(term)
    }

    /// The pack with these constants and a term.
    pub fn pack_of(&self, term: &[u8]) -> Vec<u8> {
        pack(&self.languages, &self.bodies, term)
    }

    /// Whether the pack with a term keeps to the limits on packs and terms.
    pub fn fits(&self, term: &[u8]) -> bool {
        let (languages, bodies) = (self.languages.len(), self.bodies.len());
        let constants = languages <= CONSTANTS && bodies <= CONSTANTS;
        let whole = self.pack_of(term);
        let levels = || {
            let parts = pack_parts(&whole).ok()?;
            read_term(&parts.term, languages, bodies).ok()
        };
        constants && whole.len() <= PACK_LIMIT && levels().is_some()
    }
}

/// Writes a term with other numbers for its constants and bodies.
fn renumber(sign: &Sign, languages: &[u8], bodies: &[u8], term: &mut Vec<u8>) {
    term.push(sign.sign);
    if sign.sign != BODY {
        let number = sign.number.map(|number| match sign.sign {
            CONSTANT => languages[usize::from(number)],
            _ => number,
        });
        term.extend(number);
    }
    for operand in &sign.operands {
        renumber(operand, languages, bodies, term);
    }
    if sign.sign == BODY {
        term.extend(sign.number.map(|number| bodies[usize::from(number)]));
    }
}

/// The sum of terms, halved again and again so that it has few levels.
pub fn sum_of(terms: &[Vec<u8>]) -> Vec<u8> {
    match terms {
        [term] => term.clone(),
        _ => {
            let (first, second) = terms.split_at(terms.len().div_ceil(2));
            [vec![SUM], sum_of(first), sum_of(second)].concat()
        }
    }
}

#[cfg(test)]
mod tests {
    use super::*;
    use crate::examples::{language_c, language_k, pack_with_sum, pack_with_wider_strap, sum};
    use crate::generate::{law_pack, pack_with_term, Random};

    /// What a pack reduces to.
    fn reduced(pack: &[u8]) -> Option<Vec<u8>> {
        let mut output = vec![0; 4096];
        let outcome = crate::reduce(pack, &mut vec![0; 65_536], &mut output);
        (outcome.number() == 0).then(|| output[..outcome.length() as usize].to_vec())
    }

    #[test]
    fn a_translation_reduces_to_itself() {
        let mut packing = Packing::default();
        let term = packing.translation(&sum()).expect("a translation");
        assert_eq!(reduced(&packing.pack_of(&term)), Some(sum()));
        assert_eq!(packing.language(&language_c()), [0x40, 1]);
        assert_eq!(packing.language(&language_k()), [0x40, 2]);
    }

    #[test]
    fn a_pack_behind_others_reduces_as_before() {
        for case in 0..300 {
            let pack = law_pack(&mut Random::new(case));
            let pack = pack_with_term(&pack, &pack.terms[0]);
            let mut packing = Packing::default();
            packing.pack(&pack_with_wider_strap()).expect("a pack");
            let term = packing.pack(&pack).expect("a pack");
            let same = reduced(&packing.pack_of(&term)) == reduced(&pack);
            assert!(same || !packing.fits(&term), "case {case}");
        }
    }

    #[test]
    fn a_sum_has_few_levels_and_equal_parts_stand_once() {
        let mut packing = Packing::default();
        let terms: Vec<Vec<u8>> =
            (0..20).map(|_| packing.pack(&pack_with_sum()).expect("a pack")).collect();
        let term = sum_of(&terms);
        assert!(packing.fits(&term));
        assert_eq!(reduced(&packing.pack_of(&term)), Some(sum()));
        assert_eq!((packing.languages.len(), packing.bodies.len()), (2, 1));
    }
}
