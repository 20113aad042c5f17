//! How long the trees of each kind can be.

use crate::language::{Language, Production, KINDS};
use crate::tree::TREE_LEVELS;

/// The least and the greatest length of some trees; the greatest saturates.
#[derive(Clone, Copy, Debug, Default)]
pub struct Bounds {
    pub least: usize,
    pub most: usize,
}

impl Bounds {
    /// The bounds of two trees in a row.
    pub fn and(self, other: Bounds) -> Bounds {
        let least = self.least.saturating_add(other.least);
        Bounds { least, most: self.most.saturating_add(other.most) }
    }

    /// The bounds of a tree that has one kind of shape or another.
    fn or(self, other: Bounds) -> Bounds {
        Bounds { least: self.least.min(other.least), most: self.most.max(other.most) }
    }

    /// How far a length lies outside, 0 if it is within.
    pub fn distance(self, length: usize) -> usize {
        self.least.saturating_sub(length) + length.saturating_sub(self.most)
    }
}

/// The bounds of each kind for trees of at most so many levels, if there is such a tree; a token
/// is no level.
type Level = [Option<Bounds>; KINDS];

/// The bounds of each kind, by the number of levels.
pub struct Lengths {
    levels: Vec<Level>,
}

impl Lengths {
    /// Works out the bounds for a language.
    pub fn new(language: &Language) -> Lengths {
        let mut levels = vec![class_bounds(language)];
        for below in 0..TREE_LEVELS {
            levels.push(level_above(language, &levels[below]));
        }
        Lengths { levels }
    }

    /// The bounds of the trees of a kind with at most so many levels.
    pub fn of(&self, kind: u8, levels: usize) -> Option<Bounds> {
        self.levels[levels][kind as usize]
    }
}

/// The bounds of the tokens.
fn class_bounds(language: &Language) -> Level {
    let mut level = [None; KINDS];
    for class in &language.classes {
        level[class.kind as usize] = Some(Bounds { least: 2, most: 2 });
    }
    level
}

/// The bounds with one level more than those given.
fn level_above(language: &Language, below: &Level) -> Level {
    let mut level = class_bounds(language);
    for production in &language.productions {
        let place = &mut level[production.result as usize];
        let bounds = production_bounds(production, below);
        *place = bounds.map(|bounds| place.map_or(bounds, |other| bounds.or(other))).or(*place);
    }
    level
}

/// The bounds of the trees of a production whose arguments have these bounds.
fn production_bounds(production: &Production, below: &Level) -> Option<Bounds> {
    let name = Bounds { least: 1, most: 1 };
    let mut arguments = production.arguments().iter();
    arguments.try_fold(name, |bounds, &kind| Some(bounds.and(below[kind as usize]?)))
}
