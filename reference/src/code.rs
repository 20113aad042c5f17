//! Code: 01 name arguments, 02 token, 03 argument, 04 argument and the number of its mapping, in
//! prefix form.

use crate::body::Body;
use crate::field::two_bytes;
use crate::grammar::Grammar;

/// Code has at most this many levels: each 01, 03 and 04 is one, 02 is none.
pub const CODE_LEVELS: u32 = 16;

pub const PRODUCTION_SIGN: u8 = 1;
pub const TOKEN_SIGN: u8 = 2;
pub const ARGUMENT_SIGN: u8 = 3;
pub const NUMBERED_ARGUMENT_SIGN: u8 = 4;

/// One sign of a code with what follows it; arguments are numbered from 0 here, and have the number
/// of their mapping beside them.
#[derive(Clone, Copy, Debug, PartialEq, Eq)]
pub enum Symbol {
    Production(u8),
    Token(u16),
    Argument(u8, u8),
}

impl Symbol {
    /// Splits the first symbol from the bytes behind it.
    #[inline]
    pub fn split(code: &[u8]) -> Option<(Symbol, &[u8])> {
        match code {
            [PRODUCTION_SIGN, name, rest @ ..] => Some((Symbol::Production(*name), rest)),
            [TOKEN_SIGN, high, low, rest @ ..] => {
                Some((Symbol::Token(two_bytes(*high, *low)), rest))
            }
            [ARGUMENT_SIGN, number, rest @ ..] => {
                Some((Symbol::Argument(number.checked_sub(1)?, 0), rest))
            }
            [NUMBERED_ARGUMENT_SIGN, argument, number @ 1..=255, rest @ ..] => {
                Some((Symbol::Argument(argument.checked_sub(1)?, *number), rest))
            }
            _ => None,
        }
    }

    /// Appends the symbol's bytes.
    pub fn put(self, output: &mut Vec<u8>) {
        match self {
            Symbol::Production(name) => output.extend_from_slice(&[PRODUCTION_SIGN, name]),
            Symbol::Token(value) => {
                output.push(TOKEN_SIGN);
                output.extend_from_slice(&value.to_be_bytes());
            }
            Symbol::Argument(argument, 0) => {
                output.extend_from_slice(&[ARGUMENT_SIGN, argument + 1]);
            }
            Symbol::Argument(argument, number) => {
                output.extend_from_slice(&[NUMBERED_ARGUMENT_SIGN, argument + 1, number]);
            }
        }
    }

    /// The number of bytes that `put` appends.
    pub fn length(self) -> u64 {
        match self {
            Symbol::Production(_) | Symbol::Argument(_, 0) => 2,
            _ => 3,
        }
    }

    /// The number of levels that the symbol is: none or one.
    pub fn levels(self) -> u32 {
        match self {
            Symbol::Token(_) => 0,
            _ => 1,
        }
    }
}

/// The symbols of a code that is known to be whole.
pub fn symbols(code: &[u8]) -> impl Iterator<Item = Symbol> + '_ {
    let mut rest = code;
    std::iter::from_fn(move || {
        let (symbol, behind) = Symbol::split(rest)?;
        rest = behind;
        Some(symbol)
    })
}

/// The kinds of a clause's arguments, and what they are mapped to.
pub struct ArgumentKinds<'a> {
    pub body: &'a Body,
    pub arguments: &'a [u8],
}

impl ArgumentKinds<'_> {
    /// The kind that an argument, counted from 0, is mapped to by a number.
    pub fn get(&self, argument: u8, number: u8) -> Option<u8> {
        self.body.mapped(*self.arguments.get(argument as usize)?, number)
    }
}

/// Whether the bytes are exactly one code of the kind with at most 16 levels.
pub fn is_code_of(target: &Grammar, arguments: &ArgumentKinds, kind: u8, code: &[u8]) -> bool {
    let rest = read_code(target, arguments, kind, code, CODE_LEVELS);
    rest.is_some_and(<[u8]>::is_empty)
}

/// Reads one code of the kind and gives the bytes behind it.
fn read_code<'a>(
    target: &Grammar,
    arguments: &ArgumentKinds,
    kind: u8,
    code: &'a [u8],
    levels: u32,
) -> Option<&'a [u8]> {
    let (symbol, mut rest) = Symbol::split(code)?;
    match symbol {
        Symbol::Token(value) => {
            let class = target.class(kind)?;
            class.has(value).then_some(rest)
        }
        _ if levels == 0 => None,
        Symbol::Production(name) => {
            let production = target.production(target.place(kind, name)?);
            for &argument in production.arguments() {
                rest = read_code(target, arguments, argument, rest, levels - 1)?;
            }
            Some(rest)
        }
        Symbol::Argument(argument, number) => {
            (arguments.get(argument, number)? == kind).then_some(rest)
        }
    }
}

/// A symbol of a well-formed code with its place in the code's structure.
#[derive(Clone, Copy, Debug)]
pub struct Node {
    pub symbol: Symbol,
    /// The kind of the code that starts here.
    pub kind: u8,
    /// The level, 1 at the root; that of a token counts for nothing.
    pub level: u32,
    /// Where the code that starts here ends in the list of nodes.
    pub end: usize,
}

/// The nodes of a well-formed code of a kind, in prefix order.
pub fn nodes(target: &Grammar, kind: u8, code: &[u8]) -> Vec<Node> {
    let mut list = Vec::new();
    let rest = push_nodes(target, kind, code, 1, &mut list);
    debug_assert!(rest.is_empty());
    list
}

/// Appends the nodes of the first code in the bytes and gives the bytes behind it.
fn push_nodes<'a>(
    target: &Grammar,
    kind: u8,
    code: &'a [u8],
    level: u32,
    list: &mut Vec<Node>,
) -> &'a [u8] {
    let (symbol, mut rest) = Symbol::split(code).expect("a well-formed code");
    let place = list.len();
    list.push(Node { symbol, kind, level, end: place });
    if let Symbol::Production(name) = symbol {
        let production = target.place(kind, name).expect("a production of the target");
        for &argument in target.production(production).arguments() {
            rest = push_nodes(target, argument, rest, level + 1, list);
        }
    }
    list[place].end = list.len();
    rest
}
