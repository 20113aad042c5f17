//! Faults of exports, and of texts that are imported.

use super::nodes::place_name;
use super::tree::{check, known_root};
use super::{language, translation, Fault, Piece};
use crate::grammar::Grammar;
use crate::language::Class;
use crate::outcome::Refusal;
use crate::tree::TREE_LEVELS;
use crate::xml::text_length;

/// So many bytes of a text are shown where other bytes are needed.
const SHOWN: usize = 12;

/// Looks for any fault of an export, with an output of so many bytes.
pub fn check_export(bytes: &[u8], root: u32, tree: &[u8], output: usize) -> Result<(), Fault> {
    check(bytes, root, tree)?;
    let language = translation::decoded(&Piece::whole("language", bytes))?;
    let length = text_length(&language, root as u8, tree);
    check_output(length, output, "text")
}

/// Looks for any fault of an import, with an output of so many bytes.
pub fn check_import(bytes: &[u8], root: u32, text: &[u8], output: usize) -> Result<(), Fault> {
    let piece = Piece::whole("language", bytes);
    language::check(&piece)?;
    let language = translation::decoded(&piece)?;
    let kind = known_root(&language, "language", root)?;
    let (grammar, piece) = (Grammar::new(&language), Piece::whole("text", text));
    let mut reader = Reader { grammar: &grammar, piece, at: 0, path: vec![], length: 0 };
    reader.read(kind, TREE_LEVELS)?;
    let left = text.len() - reader.at;
    if left > 0 {
        let what = format!("more bytes follow the text of the tree: {left}");
        return Err(reader.piece.fault(Refusal::Text, reader.at, what));
    }
    check_output(reader.length, output, "tree")
}

/// Refuses a result that is longer than the output.
fn check_output(length: u64, output: usize, result: &str) -> Result<(), Fault> {
    if length <= output as u64 {
        return Ok(());
    }
    let what = format!("its length is {output}, and that of the {result} {length}");
    Err(Piece::whole("output", &[]).fault_somewhere(Refusal::Output, what))
}

/// Reads a text from left to right, knows the path to the node that it reads, and counts the bytes
/// of the tree.
struct Reader<'a> {
    grammar: &'a Grammar<'a>,
    piece: Piece<'a>,
    at: usize,
    path: Vec<usize>,
    length: u64,
}

impl Reader<'_> {
    /// Reads the text of a tree of a kind with so many levels left.
    fn read(&mut self, kind: u8, levels: usize) -> Result<(), Fault> {
        match self.grammar.class(kind) {
            Some(class) => self.read_token(class),
            None => self.read_production(kind, levels),
        }
    }

    /// Reads the text of a token of a class.
    fn read_token(&mut self, class: Class) -> Result<(), Fault> {
        let kind = class.kind;
        self.expect(&format!("<t{kind}>"))?;
        let (start, value) = (self.at, self.read_number()?);
        if !class.has(value) {
            let what = format!("the token {value} is not in class {kind}: {}", class.range());
            return self.fault(Refusal::Text, start, what);
        }
        self.expect(&format!("</t{kind}>"))?;
        self.length += 2;
        Ok(())
    }

    /// Reads the text of a production and its arguments.
    fn read_production(&mut self, kind: u8, levels: usize) -> Result<(), Fault> {
        if levels == 0 {
            let what = format!("a block at level {} is over {TREE_LEVELS}", TREE_LEVELS + 1);
            return self.fault(Refusal::Depth, self.at, what);
        }
        self.expect(&format!("<x{kind}."))?;
        let (start, name) = (self.at, self.read_number()?);
        let place = u8::try_from(name).ok().and_then(|name| self.grammar.place(kind, name));
        let Some(place) = place else {
            return self.fault(Refusal::Text, start, self.grammar.no_production(kind, name));
        };
        self.expect(">")?;
        self.length += 1;
        self.read_arguments(self.grammar.production(place).arguments(), levels - 1)?;
        self.expect(&format!("</x{kind}.{name}>"))
    }

    /// Reads the texts of arguments, each with its number at the end of the path.
    fn read_arguments(&mut self, arguments: &[u8], levels: usize) -> Result<(), Fault> {
        for (place, &kind) in arguments.iter().enumerate() {
            self.path.push(place + 1);
            self.read(kind, levels)?;
            self.path.pop();
        }
        Ok(())
    }

    /// Steps over a text, or says what stands in its place.
    fn expect(&mut self, needed: &str) -> Result<(), Fault> {
        let rest = &self.piece.bytes[self.at..];
        if rest.starts_with(needed.as_bytes()) {
            self.at += needed.len();
            return Ok(());
        }
        let what = match rest {
            [] => format!("{needed} is needed, and the text ends"),
            _ => {
                let found = rest[..rest.len().min(SHOWN)].escape_ascii();
                format!("{needed} is needed, and '{found}' stands here")
            }
        };
        self.fault(Refusal::Text, self.at, what)
    }

    /// Reads a number of two bytes that has no leading zeros.
    fn read_number(&mut self) -> Result<u16, Fault> {
        let rest = &self.piece.bytes[self.at..];
        let count = rest.iter().take_while(|byte| byte.is_ascii_digit()).count();
        let digits = String::from_utf8_lossy(&rest[..count]);
        let what = match digits.parse() {
            Ok(number) if !digits.starts_with('0') || count == 1 => {
                self.at += count;
                return Ok(number);
            }
            Ok(_) => format!("{digits} has a leading zero"),
            Err(_) if count == 0 => "a number is needed".to_string(),
            Err(_) => "the number is too large".to_string(),
        };
        self.fault(Refusal::Text, self.at, what)
    }

    /// A fault at a byte of the text, in the node that is read.
    fn fault<T>(&self, reason: Refusal, at: usize, what: String) -> Result<T, Fault> {
        Err(self.piece.named(place_name(&self.path)).fault(reason, at, what))
    }
}
