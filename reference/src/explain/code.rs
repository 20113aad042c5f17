//! Faults of codes.

use crate::code::{ArgumentKinds, Symbol, CODE_LEVELS};
use crate::grammar::Grammar;

/// Where in the code the fault is, and what it is.
type Local = (usize, String);

/// Reads a code from left to right.
struct Reader<'a> {
    target: &'a Grammar<'a>,
    arguments: &'a ArgumentKinds<'a>,
    code: &'a [u8],
    at: usize,
}

/// What keeps the bytes from being exactly one code of the kind, if anything.
pub fn code_fault(
    target: &Grammar,
    arguments: &ArgumentKinds,
    kind: u8,
    code: &[u8],
) -> Option<Local> {
    let mut reader = Reader { target, arguments, code, at: 0 };
    reader.read(kind, CODE_LEVELS).err().or_else(|| {
        let left = code.len() - reader.at;
        (left > 0).then(|| (reader.at, format!("more bytes follow the code: {left}")))
    })
}

impl Reader<'_> {
    /// Reads a code of a kind, with so many levels left.
    fn read(&mut self, kind: u8, levels: u32) -> Result<(), Local> {
        let at = self.at;
        let (symbol, rest) = Symbol::split(&self.code[at..]).ok_or_else(|| self.cut(kind))?;
        self.at = self.code.len() - rest.len();
        if symbol.levels() > 0 && levels == 0 {
            return Err((at, format!("level {} is over {CODE_LEVELS}", CODE_LEVELS + 1)));
        }
        match symbol {
            Symbol::Token(value) => self.check_token(kind, value).map_err(|what| (at, what)),
            Symbol::Argument(argument, number) => {
                self.check_argument(kind, argument, number).map_err(|what| (at, what))
            }
            Symbol::Production(name) => self.read_arguments(kind, name, at, levels - 1),
        }
    }

    /// Reads the arguments of a production whose sign stands at a place.
    fn read_arguments(&mut self, kind: u8, name: u8, at: usize, levels: u32) -> Result<(), Local> {
        let place = self.target.place(kind, name);
        let place =
            place.ok_or_else(|| (at, format!("the target has no production {kind}.{name}")))?;
        let arguments = self.target.production(place).arguments();
        arguments.iter().try_for_each(|&argument| self.read(argument, levels))
    }

    /// What is wrong where no whole symbol stands.
    fn cut(&self, kind: u8) -> Local {
        let what = match &self.code[self.at..] {
            [] => format!("the code ends where one of kind {kind} is needed"),
            [3 | 4, 0, ..] => "arguments are numbered from 1".to_string(),
            [4, _, 0, ..] => "number 0 is used by 03".to_string(),
            [1..=4, ..] => "the code ends within a sign".to_string(),
            [sign, ..] => format!("{sign:02X} is none of the signs 01, 02, 03 and 04"),
        };
        (self.at, what)
    }

    /// Refuses a token that is not of the kind.
    fn check_token(&self, kind: u8, value: u16) -> Result<(), String> {
        match self.target.class(kind) {
            Some(class) if class.has(value) => Ok(()),
            Some(class) => {
                Err(format!("the token {value} is not in class {kind}: {}", class.range()))
            }
            None => Err(format!("a token stands where kind {kind} is needed, which is no class")),
        }
    }

    /// Refuses an argument (numbered from 0) that is not there, lacks the number or is not of the kind.
    fn check_argument(&self, kind: u8, argument: u8, number: u8) -> Result<(), String> {
        let shown = u32::from(argument) + 1;
        let by = if number == 0 { String::new() } else { format!(" by number {number}") };
        match (self.arguments.get(argument, number), self.arguments.get(argument, 0)) {
            (Some(found), _) if found == kind => Ok(()),
            (Some(found), _) => Err(format!(
                "argument {shown} is mapped to kind {found}{by}, where kind {kind} is needed"
            )),
            (None, Some(_)) => Err(format!("the kind of argument {shown} has no number {number}")),
            (None, None) => Err(format!("the production has no argument {shown}")),
        }
    }
}
