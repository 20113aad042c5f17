//! A notation of files as text, in which no length is written: `write` gives the text of a file, and
//! `assemble` counts every length and gives the file back, byte for byte.

mod code;
mod layout;
mod read;
mod tokens;
pub(crate) mod write;

pub use layout::Nested;
pub use read::assemble;
pub use tokens::Misread;

pub(crate) use code::between as shapes_in_pack;

use crate::body::CLAUSE_TAG;
use crate::explain::{card_kinds, pack_parts, read_term, translation_pieces, Fault, Piece};
use crate::index::ENTRY_BYTES;
use crate::language::Kinds;
use crate::names::Names;
use crate::plans::{self, Form, Node};
use write::Lines;

/// The letters for the arguments of a clause.
pub const VARIABLES: [&str; 8] = ["x", "y", "z", "u", "v", "w", "s", "t"];

/// What a file is, with what else is needed to read it.
#[derive(Clone, Copy, Debug)]
pub enum Source<'a> {
    Language(&'a [u8]),
    Translation(&'a [u8]),
    Pack(&'a [u8]),
    Table(&'a [u8]),
    Card(&'a [u8]),
    Index(&'a [u8]),
    Plan { language: &'a [u8], root: u32, plan: &'a [u8], form: Form },
}

/// The text of a file.
pub fn dump(source: Source, names: &Names) -> Result<String, Fault> {
    match source {
        Source::Language(file) => write::language(file, names),
        Source::Translation(file) => write::translation(file, names),
        Source::Pack(file) => write::pack(file, names),
        Source::Table(file) => write::table(file, names),
        Source::Card(file) => card(file, names),
        Source::Index(file) => Ok(index(file)),
        Source::Plan { language, root, plan, form } => {
            let node = plans::read(language, root, plan, form)?;
            Ok(plan_text(&node, form, names))
        }
    }
}

/// A plan in the notation.
fn plan_text(node: &Node, form: Form, names: &Names) -> String {
    let sort = match form {
        Form::Settled => "tree",
        Form::Loose => "loose",
        Form::Masked(_) => "masked",
    };
    let mut lines = Lines::new(&format!("{sort} {}", names.kind(node.kind)), names);
    lines.nested(1, &write::node_text(node, names));
    lines.text
}

/// A node as text on as many lines as it needs, each but the first behind so many spaces.
pub fn node_words(node: &Node, names: &Names, indent: usize) -> String {
    let mut text = String::new();
    write::node_text(node, names).put(indent, &mut text);
    text
}

/// The term of a pack as text on one line, if it can be read.
pub fn term_line(pack: &[u8]) -> Option<String> {
    let parts = pack_parts(pack).ok()?;
    let sign = read_term(&parts.term, parts.languages.len(), parts.bodies.len()).ok()?;
    Some(write::term_text(&sign).line())
}

/// The clauses of a translation as text, a line for each, if it can be read.
pub fn clause_words(translation: &[u8], names: &Names) -> Option<String> {
    let pieces = translation_pieces(translation).ok()?;
    let (between, spots) = (shapes(&pieces.source, &pieces.target), pieces.body.spots());
    let clauses = spots.iter().filter(|spot| spot.key().0 == CLAUSE_TAG);
    let line = |spot| format!("{}\n", write::body_line(spot, &spots, &between, names, 0));
    Some(clauses.map(line).collect())
}

/// A node as text on one line.
pub fn node_line(node: &Node, names: &Names) -> String {
    write::node_text(node, names).line()
}

/// What a source and a target tell of their productions.
pub(crate) fn shapes(source: &Piece, target: &Piece) -> write::Between {
    let shapes = |piece: &Piece| code::Shapes::of(&[piece]);
    write::Between { source: shapes(source), target: shapes(target) }
}

/// A card in the notation, whether or not its kinds rise.
fn card(bytes: &[u8], names: &Names) -> Result<String, Fault> {
    let kinds = card_kinds(bytes)?;
    let mut lines = Lines::new("card", names);
    kinds.iter().for_each(|kind| lines.add(1, &format!("kind {}", names.kind(*kind))));
    Ok(lines.text)
}

/// An index in the notation; bytes that are no whole entry stand at its end.
fn index(bytes: &[u8]) -> String {
    let names = Names::default();
    let mut lines = Lines::new("index", &names);
    let entries = bytes.chunks_exact(ENTRY_BYTES);
    let rest = entries.remainder();
    for entry in entries {
        let number = |at: usize| u16::from_be_bytes([entry[at], entry[at + 1]]);
        lines.add(1, &format!("start {} length {}", number(0), number(2)));
    }
    if !rest.is_empty() {
        lines.add(1, &write::raw(rest));
    }
    lines.text
}

/// The kinds that a card shows, whether or not they rise.
pub fn seen(card: &[u8]) -> Result<Kinds, Fault> {
    let kinds = card_kinds(card)?;
    Ok(kinds.iter().fold(0, |seen, &kind| seen | crate::language::bit(kind)))
}
