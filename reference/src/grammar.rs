//! A language with tables for constant-time lookup.

use crate::language::{Class, Language, Production, KINDS};

const NAMES: usize = 256;
const PLACES: usize = KINDS * NAMES;

/// Lookup of classes by kind and of productions by kind and name.
pub struct Grammar<'a> {
    classes: [Option<Class>; KINDS],
    productions: &'a [Production],
    places: Box<[u16; PLACES]>,
}

impl<'a> Grammar<'a> {
    /// Builds the tables of a well-formed language.
    pub fn new(language: &'a Language) -> Grammar<'a> {
        let mut classes = [None; KINDS];
        for class in &language.classes {
            classes[class.kind as usize] = Some(*class);
        }
        let mut places = empty_places();
        for (place, production) in language.productions.iter().enumerate() {
            places[production.key() as usize] = place as u16 + 1;
        }
        Grammar { classes, productions: &language.productions, places }
    }

    /// The class of a kind, if it has one.
    #[inline]
    pub fn class(&self, kind: u8) -> Option<Class> {
        self.classes[kind as usize % KINDS]
    }

    /// The place of a production in the language, if it is there.
    #[inline]
    pub fn place(&self, kind: u8, name: u8) -> Option<usize> {
        let entry = self.places[kind as usize % KINDS * NAMES + name as usize];
        usize::from(entry).checked_sub(1)
    }

    /// Why there is no production of a kind and a name.
    pub fn no_production(&self, kind: u8, name: u16) -> String {
        match self.productions.iter().any(|production| production.result == kind) {
            true => format!("there is no production {kind}.{name}"),
            false => format!("kind {kind} is undefined: it has no legal tree"),
        }
    }

    /// The production at a place.
    #[inline]
    pub fn production(&self, place: usize) -> &'a Production {
        &self.productions[place]
    }
}

/// A table in which no production has a place yet.
fn empty_places() -> Box<[u16; PLACES]> {
    let places = vec![0; PLACES].into_boxed_slice();
    places.try_into().expect("the length is the same constant")
}
