//! Codes as nested text. How many arguments a production has, the languages tell; where they do not,
//! the signs stand side by side, so that any bytes can be written and read back.

use super::layout::Nested;
use super::write::{raw, Between};
use super::VARIABLES;
use crate::code::Symbol;
use crate::explain::{Piece, Sign};
use crate::field::two_bytes;
use crate::language::PRODUCTION_TAG;
use crate::names::Names;
use std::collections::BTreeMap;

/// Codes are nested up to this depth; what is deeper is written as bytes.
const DEPTH: usize = 64;

/// The argument kinds of productions, by result and name.
#[derive(Clone, Debug, Default)]
pub struct Shapes {
    productions: BTreeMap<u16, Vec<u8>>,
}

impl Shapes {
    /// The productions of some languages; of two that are alike in result and name the first counts.
    pub fn of(languages: &[&Piece]) -> Shapes {
        let mut productions = BTreeMap::new();
        for spot in languages.iter().flat_map(|language| language.spots()) {
            if let (PRODUCTION_TAG, [result, name, arguments @ ..]) = (spot.tag, spot.contents) {
                productions.entry(two_bytes(*result, *name)).or_insert_with(|| arguments.to_vec());
            }
        }
        Shapes { productions }
    }

    /// The argument kinds of a production.
    pub fn arguments(&self, result: u8, name: u8) -> Option<&[u8]> {
        self.productions.get(&two_bytes(result, name)).map(Vec::as_slice)
    }
}

/// The languages between which a sign 50 of the term puts a body; where none does, all of the pack.
pub fn between(languages: &[Piece], term: Option<&Sign>, body: usize) -> Between {
    let all: Vec<&Piece> = languages.iter().collect();
    let found = term.and_then(|term| operands_of(term, body, &mut vec![]));
    let Some([source, target]) = found else {
        return Between { source: Shapes::of(&all), target: Shapes::of(&all) };
    };
    let shapes = |numbers: &[u8]| {
        let chosen: Vec<&Piece> = numbers.iter().map(|&number| all[usize::from(number)]).collect();
        Shapes::of(&chosen)
    };
    Between { source: shapes(&source), target: shapes(&target) }
}

/// The numbers of the languages that the source and the target of a body are made of.
fn operands_of<'a>(sign: &'a Sign, body: usize, lets: &mut Vec<&'a Sign>) -> Option<[Vec<u8>; 2]> {
    if sign.sign == 0x50 && sign.number == Some(body as u8) {
        let constants = |operand: &'a Sign| {
            let mut list = vec![];
            put_constants(operand, lets, &mut list);
            list
        };
        return Some([constants(&sign.operands[0]), constants(&sign.operands[1])]);
    }
    let is_let = matches!(sign.sign, 0x46 | 0x47 | 0x56 | 0x57);
    for (place, operand) in sign.operands.iter().enumerate() {
        let inside = is_let && place == 1;
        if inside {
            lets.push(sign);
        }
        let found = operands_of(operand, body, lets);
        if inside {
            lets.pop();
        }
        if found.is_some() {
            return found;
        }
    }
    None
}

/// Appends the constants of a term, those of its variables too.
fn put_constants(sign: &Sign, lets: &[&Sign], list: &mut Vec<u8>) {
    let variable_of = |of: &Sign| match sign.sign {
        0x41 => matches!(of.sign, 0x46 | 0x56) && of.number == sign.number,
        0x51 => matches!(of.sign, 0x47 | 0x57) && of.number == sign.number,
        _ => false,
    };
    if sign.sign == 0x40 {
        list.extend(sign.number);
    }
    if let Some(place) = lets.iter().rposition(|of| variable_of(of)) {
        put_constants(&lets[place].operands[0], &lets[..place], list);
    }
    sign.operands.iter().for_each(|operand| put_constants(operand, lets, list));
}

/// Writes a code from left to right.
pub struct CodeWriter<'a> {
    target: &'a Shapes,
    names: &'a Names,
    rest: &'a [u8],
    /// How many arguments have letters.
    letters: usize,
}

impl<'a> CodeWriter<'a> {
    /// Starts before a code whose clause may give letters to its arguments.
    pub fn new(
        target: &'a Shapes,
        names: &'a Names,
        code: &'a [u8],
        letters: Option<usize>,
    ) -> CodeWriter<'a> {
        CodeWriter { target, names, rest: code, letters: letters.unwrap_or(0) }
    }

    /// The code of a kind, and behind it what is left over.
    pub fn parts(&mut self, kind: Option<u8>) -> Vec<Nested> {
        let mut parts: Vec<Nested> = self.part(kind, DEPTH).into_iter().collect();
        while let Some(part) = self.part(None, DEPTH) {
            parts.push(part);
        }
        match parts.is_empty() {
            true => vec![Nested::leaf("bytes")],
            false => parts,
        }
    }

    /// The next part, of a kind if that is known; none at the end.
    fn part(&mut self, kind: Option<u8>, depth: usize) -> Option<Nested> {
        if self.rest.is_empty() {
            return None;
        }
        let Some((symbol, rest)) = Symbol::split(self.rest).filter(|_| depth > 0) else {
            let bytes = std::mem::take(&mut self.rest);
            return Some(Nested::leaf(raw(bytes)));
        };
        self.rest = rest;
        Some(match symbol {
            Symbol::Token(value) => Nested::leaf(value.to_string()),
            Symbol::Argument(argument, number) => Nested::leaf(self.argument(argument, number)),
            Symbol::Production(name) => self.production(kind, name, depth),
        })
    }

    /// A use of an argument, counted from 0.
    fn argument(&self, argument: u8, number: u8) -> String {
        let by = if number == 0 { String::new() } else { format!(".{number}") };
        match VARIABLES.get(usize::from(argument)).filter(|_| usize::from(argument) < self.letters)
        {
            Some(letter) => format!("{letter}{by}"),
            None => format!("#{}{by}", u32::from(argument) + 1),
        }
    }

    /// A production with its arguments, as many as there are.
    fn production(&mut self, kind: Option<u8>, name: u8, depth: usize) -> Nested {
        let Some(kind) = kind else { return Nested::leaf(format!("?.{name}")) };
        let word = self.names.production(kind, name);
        let Some(kinds) = self.target.arguments(kind, name) else {
            return match word.starts_with(|first: char| first.is_ascii_digit()) {
                true => Nested::leaf(word),
                false => Nested::with(word, vec![]),
            };
        };
        let arguments = kinds.iter().map_while(|&kind| self.part(Some(kind), depth - 1)).collect();
        Nested::with(word, arguments)
    }
}
