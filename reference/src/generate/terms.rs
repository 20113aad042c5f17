//! Terms over the constants of a pack, and chains of a wanted number of levels.

use super::random::Random;
use crate::term::VARIABLES;

/// What a term may name.
pub struct Names<'a> {
    /// The number of languages.
    pub languages: usize,
    /// Source, target and body of translations that are well formed.
    pub triples: &'a [(u8, u8, u8)],
    /// The number of bodies.
    pub bodies: usize,
}

/// Writes random terms; remembers which variables are bound where the term is written.
pub struct TermWriter<'a> {
    pub names: &'a Names<'a>,
    languages: Vec<u8>,
    translations: Vec<u8>,
}

impl<'a> TermWriter<'a> {
    /// A writer with no variable bound.
    pub fn new(names: &'a Names<'a>) -> TermWriter<'a> {
        TermWriter { names, languages: vec![], translations: vec![] }
    }

    /// A variable, sometimes one that is not bound.
    fn variable(random: &mut Random, bound: &[u8]) -> u8 {
        if bound.is_empty() || random.percent(8) {
            random.below(VARIABLES) as u8
        } else {
            random.pick(bound)
        }
    }

    /// A variable to bind, often the first or the last, seldom one past it.
    fn fresh(random: &mut Random) -> u8 {
        if random.percent(1) {
            return random.pick(&[16, 255]);
        }
        random.pick(&[0, 1, 15, 2, 7])
    }

    /// Appends a language term with at most so many levels.
    pub fn language(&mut self, random: &mut Random, levels: usize, term: &mut Vec<u8>) {
        let leaf = levels <= 1 || random.percent(45);
        if leaf {
            return self.language_leaf(random, term);
        }
        match random.below(7) {
            0 | 1 => {
                term.push(random.pick(&[0x42, 0x43]));
                self.language(random, levels - 1, term);
                self.language(random, levels - 1, term);
            }
            2 => {
                term.push(0x43);
                self.language(random, levels - 1, term);
                self.language(random, levels - 1, term);
            }
            3 | 4 if levels > 2 => {
                term.push(random.pick(&[0x44, 0x45]));
                self.translation(random, levels - 1, term);
            }
            5 if levels > 2 => {
                let variable = Self::fresh(random);
                term.extend_from_slice(&[0x47, variable]);
                self.translation(random, levels - 1, term);
                self.translations.push(variable);
                self.language(random, levels - 1, term);
                self.translations.pop();
            }
            _ => {
                let variable = Self::fresh(random);
                term.extend_from_slice(&[0x46, variable]);
                self.language(random, levels - 1, term);
                self.languages.push(variable);
                self.language(random, levels - 1, term);
                self.languages.pop();
            }
        }
    }

    /// Appends a constant or a variable.
    fn language_leaf(&mut self, random: &mut Random, term: &mut Vec<u8>) {
        let variable = !self.languages.is_empty() && random.percent(50);
        if variable || random.percent(2) {
            let variable = Self::variable(random, &self.languages);
            term.extend_from_slice(&[0x41, variable]);
        } else {
            term.extend_from_slice(&[0x40, random.below(self.names.languages) as u8]);
        }
    }

    /// Appends a translation term with at most so many levels, two or more.
    pub fn translation(&mut self, random: &mut Random, levels: usize, term: &mut Vec<u8>) {
        let leaf = levels <= 2 || random.percent(35);
        if leaf {
            return self.translation_leaf(random, levels, term);
        }
        match random.below(8) {
            0..=2 => {
                term.push(0x53);
                self.translation(random, levels - 1, term);
                self.translation(random, levels - 1, term);
            }
            3 | 4 => {
                term.push(0x54);
                self.translation(random, levels - 1, term);
                self.translation(random, levels - 1, term);
            }
            5 => {
                term.push(0x52);
                self.translation(random, levels - 1, term);
                self.language(random, levels - 1, term);
            }
            6 => {
                let variable = Self::fresh(random);
                term.extend_from_slice(&[0x56, variable]);
                self.language(random, levels - 1, term);
                self.languages.push(variable);
                self.translation(random, levels - 1, term);
                self.languages.pop();
            }
            _ => {
                let variable = Self::fresh(random);
                term.extend_from_slice(&[0x57, variable]);
                self.translation(random, levels - 1, term);
                self.translations.push(variable);
                self.translation(random, levels - 1, term);
                self.translations.pop();
            }
        }
    }

    /// Appends a body with its languages, an identity or a variable.
    fn translation_leaf(&mut self, random: &mut Random, levels: usize, term: &mut Vec<u8>) {
        let variable = !self.translations.is_empty() && random.percent(50);
        match random.below(20) {
            _ if variable => {
                let variable = Self::variable(random, &self.translations);
                term.extend_from_slice(&[0x51, variable]);
            }
            0 => {
                term.push(0x50);
                self.language(random, levels - 1, term);
                self.language(random, levels - 1, term);
                term.push(random.below(self.names.bodies) as u8);
            }
            1..=4 => {
                term.push(0x55);
                self.language(random, levels - 1, term);
            }
            _ => {
                let (source, target, body) = random.pick(self.names.triples);
                term.extend_from_slice(&[0x50, 0x40, source, 0x40, target, body]);
            }
        }
    }
}

/// A term of exactly so many levels that has the value of a shorter one, if that fits.
///
/// The term given has `levels_of` levels, and is put under signs with one deep operand.
pub fn deepened(random: &mut Random, term: &[u8], levels_of: usize, levels: usize) -> Vec<u8> {
    let mut deep = term.to_vec();
    for _ in levels_of..levels {
        deep = match random.below(4) {
            0 => [&[0x53][..], term, &deep].concat(),
            1 => [&[0x57, 3], term, &deep[..]].concat(),
            2 => [&[0x56, 4, 0x40, 0][..], &deep].concat(),
            _ => [&[0x52], &deep[..], &[0x42, 0x40, 0, 0x40, 0]].concat(),
        };
    }
    deep
}
