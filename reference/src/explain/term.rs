//! Terms as signs with places, and faults of terms.

use super::{Fault, Piece};
use crate::outcome::Refusal;
use crate::term::{TERM_LEVELS, VARIABLES};

/// A sign of a term with its operands.
#[derive(Clone, Debug)]
pub(crate) struct Sign {
    /// Where the sign stands in the input, and where its term ends.
    pub at: usize,
    pub end: usize,
    pub sign: u8,
    /// The number that follows the sign, or ends it.
    pub number: Option<u8>,
    pub operands: Vec<Sign>,
}

/// The two sorts of terms.
#[derive(Clone, Copy, PartialEq, Eq)]
enum Sort {
    Language,
    Translation,
}

/// What the number of a sign names.
#[derive(Clone, Copy)]
enum Named {
    Constant,
    Body,
    Variable,
}

use Sort::{Language, Translation};

impl Sort {
    /// The sort in words.
    fn text(self) -> &'static str {
        match self {
            Language => "language",
            Translation => "translation",
        }
    }

    /// The sort of a sign, if it is one.
    fn of(sign: u8) -> Option<Sort> {
        match sign {
            0x40..=0x47 => Some(Language),
            0x50..=0x57 => Some(Translation),
            _ => None,
        }
    }
}

/// The sorts of a sign's operands.
fn operand_sorts(sign: u8) -> &'static [Sort] {
    match sign {
        0x42 | 0x43 | 0x46 | 0x50 => &[Language, Language],
        0x44 | 0x45 => &[Translation],
        0x47 | 0x52 => &[Translation, Language],
        0x53 | 0x54 | 0x57 => &[Translation, Translation],
        0x55 => &[Language],
        0x56 => &[Language, Translation],
        _ => &[],
    }
}

/// What the number of a sign names, for signs that have one.
fn number_of(sign: u8) -> Option<Named> {
    match sign {
        0x40 => Some(Named::Constant),
        0x50 => Some(Named::Body),
        0x41 | 0x46 | 0x47 | 0x51 | 0x56 | 0x57 => Some(Named::Variable),
        _ => None,
    }
}

impl Sign {
    /// What the sign stands for.
    pub fn meaning(&self) -> String {
        let number = self.number.unwrap_or_default();
        match self.sign {
            0x40 => format!("language {number}"),
            0x41 => format!("language variable {number}"),
            0x42 | 0x52 => "without".to_string(),
            0x43 | 0x53 => "sum".to_string(),
            0x44 => "source".to_string(),
            0x45 => "target".to_string(),
            0x46 | 0x56 => format!("let language variable {number}"),
            0x47 | 0x57 => format!("let translation variable {number}"),
            0x50 => format!("translation with body {number}"),
            0x51 => format!("translation variable {number}"),
            0x54 => "join".to_string(),
            _ => "identity".to_string(),
        }
    }
}

/// Reads signs from left to right.
struct Reader<'a> {
    piece: &'a Piece<'a>,
    offset: usize,
    languages: usize,
    bodies: usize,
}

/// Reads bytes that must be exactly one translation term.
pub(crate) fn read_term(piece: &Piece, languages: usize, bodies: usize) -> Result<Sign, Fault> {
    let mut reader = Reader { piece, offset: 0, languages, bodies };
    let sign = reader.read(Translation, 1)?;
    let left = piece.bytes.len() - reader.offset;
    match left {
        0 => Ok(sign),
        _ => Err(reader.fault(format!("more bytes follow the term: {left}"))),
    }
}

impl Reader<'_> {
    /// A fault at the next byte.
    fn fault(&self, what: String) -> Fault {
        self.piece.fault(Refusal::Term, self.piece.start() + self.offset, what)
    }

    /// Reads a term of a sort at a level.
    fn read(&mut self, sort: Sort, level: usize) -> Result<Sign, Fault> {
        let at = self.piece.start() + self.offset;
        let sign = self.sign(sort, level)?;
        let named = number_of(sign);
        let ends = matches!(named, Some(Named::Body));
        let mut number = if ends { None } else { self.number(named)? };
        let mut operands = Vec::new();
        for &sort in operand_sorts(sign) {
            operands.push(self.read(sort, level + 1)?);
        }
        if ends {
            number = self.number(named)?;
        }
        Ok(Sign { at, end: self.piece.start() + self.offset, sign, number, operands })
    }

    /// Reads the sign of a term of a sort at a level.
    fn sign(&mut self, sort: Sort, level: usize) -> Result<u8, Fault> {
        let wanted = sort.text();
        if level > TERM_LEVELS {
            return Err(self.fault(format!("a sign at level {level} is over {TERM_LEVELS}")));
        }
        let Some(&sign) = self.piece.bytes.get(self.offset) else {
            return Err(self.fault(format!("the term ends where a {wanted} term is needed")));
        };
        match Sort::of(sign) {
            Some(found) if found == sort => (),
            Some(found) => {
                let found = found.text();
                let what = format!("{sign:02X} is a {found} term, where a {wanted} term is needed");
                return Err(self.fault(what));
            }
            None => return Err(self.fault(format!("{sign:02X} is none of the signs"))),
        }
        self.offset += 1;
        Ok(sign)
    }

    /// What is said of a number that no body has: a sign there was perhaps meant to follow.
    fn no_body(&self, number: u8) -> String {
        match Sort::of(number) {
            Some(_) => format!(
                "sign 50 ends with the number of its body, and the sign {number:02X} stands here"
            ),
            None => format!("the pack has no body {number}"),
        }
    }

    /// Reads the number of a sign that has one.
    fn number(&mut self, named: Option<Named>) -> Result<Option<u8>, Fault> {
        let Some(named) = named else { return Ok(None) };
        let Some(&number) = self.piece.bytes.get(self.offset) else {
            return Err(self.fault("the term ends where a number is needed".to_string()));
        };
        let (limit, what) = match named {
            Named::Constant => (self.languages, format!("the pack has no language {number}")),
            Named::Body => (self.bodies, self.no_body(number)),
            Named::Variable => (VARIABLES, format!("variable {number} is above {}", VARIABLES - 1)),
        };
        if usize::from(number) >= limit {
            return Err(self.fault(what));
        }
        self.offset += 1;
        Ok(Some(number))
    }
}
