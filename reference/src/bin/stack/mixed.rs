//! Random translations with codes of 16 levels, and random trees of 64 levels.
//!
//! In every production one argument is the deep one. Each code uses that once, and the others
//! once or never, so that results stay short.

use crate::shapes::{
    argument, kept, CODE_LEVELS, KIND, LEAF, MOST_ARGUMENTS, NODE, TOKEN_KIND, TREE_LEVELS,
};
use reference::files::{class, clause, mapping, production, translation};
use reference::generate::Random;

/// The names of a leaf whose code is deep, and of such a production of one token; productions with
/// a deep argument have smaller names.
const DEEP_LEAF: u8 = 0x80;
const DEEP_TOKEN: u8 = 0x81;
/// There are up to so many productions with a deep argument.
const MOST_NAMES: usize = 6;
/// A code that is a token, and a tree that is one.
const TOKEN_CODE: [u8; 3] = [2, 0, 5];
const TOKEN_TREE: [u8; 2] = [0, 5];

/// A production with its argument kinds and the number of the deep one, from 1.
struct Deep {
    name: u8,
    kinds: Vec<u8>,
    deep: u8,
}

/// A language in which trees are deep.
pub struct Mixed {
    productions: Vec<Deep>,
}

impl Deep {
    /// A random production with that name.
    fn new(random: &mut Random, name: u8) -> Deep {
        let count = random.within(1..=MOST_ARGUMENTS);
        let mut kinds: Vec<u8> = (0..count).map(|_| random.pick(&[KIND, TOKEN_KIND])).collect();
        let deep = random.below(count);
        kinds[deep] = KIND;
        Deep { name, kinds, deep: deep as u8 + 1 }
    }

    /// The numbers of the other arguments, in rising or falling order.
    fn others(&self, random: &mut Random) -> Vec<u8> {
        let numbers = 1..=self.kinds.len() as u8;
        let mut others: Vec<u8> = numbers.filter(|&number| number != self.deep).collect();
        if random.percent(50) {
            others.reverse();
        }
        others
    }
}

impl Mixed {
    /// A random language.
    pub fn new(random: &mut Random) -> Mixed {
        let names = 1..=random.within(1..=MOST_NAMES) as u8;
        Mixed { productions: names.map(|name| Deep::new(random, name)).collect() }
    }

    /// The bytes of the language.
    pub fn language(&self) -> Vec<u8> {
        let deep = self.productions.iter().map(|deep| production(KIND, deep.name, &deep.kinds));
        let first = [class(TOKEN_KIND, 0, u16::MAX), production(KIND, LEAF, &[])].into_iter();
        let last = [production(KIND, DEEP_LEAF, &[]), production(KIND, DEEP_TOKEN, &[TOKEN_KIND])];
        first.chain(deep).chain(last).collect::<Vec<_>>().concat()
    }

    /// A random production.
    fn any(&self, random: &mut Random) -> &Deep {
        &self.productions[random.below(self.productions.len())]
    }

    /// Random productions, so many times around a code; others are operands where they fit.
    fn around(
        &self,
        random: &mut Random,
        times: usize,
        bottom: Vec<u8>,
        mut others: Vec<(u8, u8)>,
    ) -> Vec<u8> {
        (0..times).fold(bottom, |code, _| {
            let nested = self.any(random);
            let mut whole = vec![NODE, nested.name];
            for (number, &kind) in (1..).zip(&nested.kinds) {
                let place = others.iter().position(|&(_, other)| other == kind);
                match place.filter(|_| random.percent(30)) {
                    _ if number == nested.deep => whole.extend_from_slice(&code),
                    Some(place) => whole.extend(argument(others.remove(place).0)),
                    None if kind == KIND => whole.extend(kept(LEAF, 0)),
                    None => whole.extend(TOKEN_CODE),
                }
            }
            whole
        })
    }

    /// A code of 16 levels for a production.
    fn code(&self, random: &mut Random, of: &Deep) -> Vec<u8> {
        let others = of.others(random).into_iter();
        let others = others.map(|number| (number, of.kinds[usize::from(number) - 1])).collect();
        self.around(random, CODE_LEVELS - 1, argument(of.deep), others)
    }

    /// A body with codes for the deep leaf and the deep token, and for the others by a function.
    fn body_by(&self, ends: [Vec<u8>; 2], mut code: impl FnMut(&Deep) -> Vec<u8>) -> Vec<u8> {
        let mappings = [mapping(KIND, KIND), mapping(TOKEN_KIND, TOKEN_KIND)].into_iter();
        let leaf = [clause(KIND, LEAF, &kept(LEAF, 0))];
        let deep = self.productions.iter().map(|deep| clause(KIND, deep.name, &code(deep)));
        let [leaf_code, token_code] = ends;
        let last = [clause(KIND, DEEP_LEAF, &leaf_code), clause(KIND, DEEP_TOKEN, &token_code)];
        mappings.chain(leaf).chain(deep).chain(last).collect::<Vec<_>>().concat()
    }

    /// A random body with codes of 16 levels.
    pub fn body(&self, random: &mut Random) -> Vec<u8> {
        let token = [&[NODE, DEEP_TOKEN], &TOKEN_CODE[..]].concat();
        let bottom = if random.percent(50) { kept(LEAF, 0) } else { token };
        let leaf = self.around(random, CODE_LEVELS - 1, bottom, vec![]);
        let token = self.around(random, CODE_LEVELS - 2, kept(DEEP_TOKEN, 1), vec![]);
        self.body_by([leaf, token], |deep| self.code(random, deep))
    }

    /// The body of the identity.
    pub fn flat_body(&self) -> Vec<u8> {
        let ends = [kept(DEEP_LEAF, 0), kept(DEEP_TOKEN, 1)];
        self.body_by(ends, |deep| kept(deep.name, deep.kinds.len() as u8))
    }

    /// A random translation into itself with codes of 16 levels.
    pub fn translation(&self, random: &mut Random) -> Vec<u8> {
        translation(&self.language(), &self.language(), &self.body(random))
    }

    /// A random tree of 64 levels, with or without a token below the last.
    pub fn tree(&self, random: &mut Random) -> Vec<u8> {
        let token = [&[DEEP_TOKEN], &TOKEN_TREE[..]].concat();
        let bottom = if random.percent(50) { vec![DEEP_LEAF] } else { token };
        (1..TREE_LEVELS).fold(bottom, |below, _| {
            let production = self.any(random);
            let mut tree = vec![production.name];
            for (number, &kind) in (1..).zip(&production.kinds) {
                match kind {
                    _ if number == production.deep => tree.extend_from_slice(&below),
                    KIND => tree.push(LEAF),
                    _ => tree.extend(TOKEN_TREE),
                }
            }
            tree
        })
    }
}
