//! Codes: well-formed ones of a kind, ones of a wanted height, and broken ones.

use super::damage::damage_bytes;
use super::heights::Heights;
use super::numbers::Use;
use super::random::Random;
use super::ranges::{edge_value, legal_value};
use crate::code::{Symbol, CODE_LEVELS};
use crate::language::{Class, Language, Production};

/// Writes codes in a target language for one clause.
pub struct Coder<'a> {
    pub target: &'a Language,
    pub heights: &'a Heights,
    /// The uses that may be made of the clause's arguments, by each of their numbers.
    pub arguments: &'a [Use],
}

impl Coder<'_> {
    /// The least number of levels of a code of the kind, if one is found.
    fn least(&self, kind: u8) -> Option<usize> {
        let least = self.heights.least(kind);
        if self.arguments.iter().any(|of| of.kind == kind) {
            return Some(least.map_or(1, |least| least.min(1)));
        }
        least
    }

    /// A well-formed code of the kind, if one is found: mostly small, sometimes of 16 levels.
    pub fn code(&self, random: &mut Random, kind: u8) -> Option<Vec<u8>> {
        let mut code = Vec::new();
        if random.percent(5) && self.heights.has(kind, CODE_LEVELS as usize) {
            self.put_high(random, kind, CODE_LEVELS as usize, &mut code);
            return Some(code);
        }
        let least = self.least(kind)?;
        let levels = least.max(random.within(1..=5));
        if least > CODE_LEVELS as usize {
            return None;
        }
        self.put(random, kind, levels, &mut code);
        (code.len() < 400).then_some(code)
    }

    /// A well-formed code, mostly a production over arguments in any order, twice or not at all.
    pub fn arrangement(&self, random: &mut Random, kind: u8) -> Option<Vec<u8>> {
        let low = |&kind: &u8| self.least(kind).is_some_and(|least| least < CODE_LEVELS as usize);
        let fits = |p: &&Production| p.result == kind && p.arguments().iter().all(low);
        let list: Vec<&Production> = self.target.productions.iter().filter(fits).collect();
        if list.is_empty() || random.percent(15) {
            return self.code(random, kind);
        }
        let pair = [random.pick(&list), random.pick(&list)];
        let production = pair.into_iter().max_by_key(|p| p.arguments().len())?;
        let (mut code, mut used) = (Vec::new(), Vec::new());
        Symbol::Production(production.name).put(&mut code);
        for &kind in production.arguments() {
            let fresh = if random.percent(65) { self.fresh(random, kind, &used) } else { None };
            match fresh.or_else(|| self.argument(random, kind)) {
                Some(argument) => argument.put(&mut code),
                None => self.put(random, kind, self.least(kind)?, &mut code),
            }
            used.extend(fresh);
        }
        (code.len() < 400).then_some(code)
    }

    /// One of the arguments that have the kind and are not among those used.
    fn fresh(&self, random: &mut Random, kind: u8, used: &[Symbol]) -> Option<Symbol> {
        let arguments = self.arguments.iter().filter(|of| of.kind == kind);
        let arguments = arguments.map(|of| of.symbol);
        let list: Vec<Symbol> = arguments.filter(|symbol| !used.contains(symbol)).collect();
        (!list.is_empty()).then(|| random.pick(&list))
    }

    /// Appends a code of the kind with at most so many levels, which must be enough.
    fn put(&self, random: &mut Random, kind: u8, levels: usize, code: &mut Vec<u8>) {
        let argument = if levels > 0 { self.argument(random, kind) } else { None };
        if let Some(argument) = argument {
            let short = self.heights.least(kind).is_none_or(|least| least > levels);
            if short || random.percent(60) {
                return argument.put(code);
            }
        }
        match self.class(kind) {
            Some(class) => token(random, class).put(code),
            None => self.put_production(random, kind, levels, code),
        }
    }

    /// Appends a production of the kind with arguments that fit into the levels.
    fn put_production(&self, random: &mut Random, kind: u8, levels: usize, code: &mut Vec<u8>) {
        let fits = |production: &&Production| {
            let mut arguments = production.arguments().iter();
            let low = |&kind: &u8| self.least(kind).is_some_and(|least| least < levels);
            production.result == kind && arguments.all(low)
        };
        let list: Vec<&Production> = self.target.productions.iter().filter(fits).collect();
        let production = random.pick(&list);
        Symbol::Production(production.name).put(code);
        for &argument in production.arguments() {
            self.put(random, argument, levels - 1, code);
        }
    }

    /// Appends a code of exactly that height, which the kind must have.
    fn put_high(&self, random: &mut Random, kind: u8, height: usize, code: &mut Vec<u8>) {
        match self.argument(random, kind) {
            Some(argument) if height == 1 && random.percent(50) => return argument.put(code),
            _ => {}
        }
        if let Some(class) = self.class(kind) {
            return token(random, class).put(code);
        }
        let fits = |p: &&Production| p.result == kind && self.heights.allows(p, height);
        let list: Vec<&Production> = self.target.productions.iter().filter(fits).collect();
        let production = random.pick(&list);
        Symbol::Production(production.name).put(code);
        let arguments = production.arguments();
        let spine = arguments.iter().position(|&kind| self.heights.has(kind, height - 1));
        for (number, &argument) in arguments.iter().enumerate() {
            if Some(number) == spine {
                self.put_high(random, argument, height - 1, code);
            } else {
                let least = self.least(argument).expect("the kind has a code");
                self.put(random, argument, least.max(1).min(height - 1), code);
            }
        }
    }

    /// One of the arguments that have the kind.
    fn argument(&self, random: &mut Random, kind: u8) -> Option<Symbol> {
        self.fresh(random, kind, &[])
    }

    /// How many arguments there are.
    fn argument_count(&self) -> u8 {
        let number = |of: &Use| match of.symbol {
            Symbol::Argument(argument, _) => argument + 1,
            _ => 0,
        };
        self.arguments.iter().map(number).max().unwrap_or(0)
    }

    /// A use of an argument that is of another kind, or by a number that it lacks or cannot have.
    fn wrong_use(&self, random: &mut Random) -> Vec<u8> {
        let count = self.argument_count();
        let argument = random.pick(&[0, 1, 1, 2, count, count, count + 1, 9, 255]);
        vec![4, argument, random.pick(&[0, 1, 2, 15, 16, 255])]
    }

    /// The class of a kind of the target.
    fn class(&self, kind: u8) -> Option<&Class> {
        self.target.classes.iter().find(|class| class.kind == kind)
    }

    /// A code that is wrong in some way, made from a good one.
    pub fn wrong_code(&self, random: &mut Random, kind: u8, code: &[u8]) -> Vec<u8> {
        let mut wrong = code.to_vec();
        match random.below(8) {
            7 => wrong = self.wrong_use(random),
            0 => wrong.clear(),
            1 => wrong = vec![3, random.pick(&[0, 1, 8, 9, 255])],
            2 => wrong = vec![3, self.argument_count() + 1],
            3 => wrong.extend_from_slice(&[3, 1]),
            4 if self.heights.has(kind, CODE_LEVELS as usize + 1) => {
                wrong.clear();
                self.put_high(random, kind, CODE_LEVELS as usize + 1, &mut wrong);
            }
            5 => match self.class(kind) {
                Some(class) => {
                    let value = edge_value(random, class);
                    wrong.clear();
                    Symbol::Token(value).put(&mut wrong);
                }
                None => wrong = vec![2, 0, random.byte()],
            },
            _ => damage_bytes(random, &mut wrong),
        }
        wrong
    }
}

/// A token of the class, often its lowest or highest.
fn token(random: &mut Random, class: &Class) -> Symbol {
    Symbol::Token(legal_value(random, class))
}
