//! Files in the notation.

use super::code::{CodeWriter, Shapes};
use super::layout::Nested;
use crate::body::{CLAUSE_TAG, MAPPING_TAG, NUMBERED_CLAUSE_TAG, NUMBERED_MAPPING_TAG};
use crate::explain::{
    language_entry, pack_parts, read_term, table_spots, translation_pieces, Fault, Piece, Sign,
    Spot,
};
use crate::field::two_bytes;
use crate::language::{CLASS_TAG, LANGUAGE_LIMIT, PRODUCTION_TAG};
use crate::names::Names;
use crate::plans::{Node, Sort};
use crate::score::signed;

/// Bytes as two digits each, with spaces between them.
pub fn hexadecimal(bytes: &[u8]) -> String {
    bytes.iter().map(|byte| format!("{byte:02X}")).collect::<Vec<_>>().join(" ")
}

/// Bytes that are nothing else.
pub fn raw(bytes: &[u8]) -> String {
    format!("bytes {}", hexadecimal(bytes)).trim_end().to_string()
}

/// The line of a field of a language.
pub fn language_line(spot: &Spot, names: &Names) -> String {
    match (spot.tag, spot.contents) {
        (CLASS_TAG, [kind, numbers @ ..]) => {
            format!("class {}: {}", names.kind(*kind), range(numbers))
        }
        (PRODUCTION_TAG, [result, name, arguments @ ..]) => {
            let kinds: Vec<String> = arguments.iter().map(|kind| names.kind(*kind)).collect();
            format!("production {} ({})", names.production(*result, *name), kinds.join(" "))
        }
        _ => spot.name(),
    }
}

/// The lowest and highest value of a class, and its step if it is written.
fn range(numbers: &[u8]) -> String {
    let numbers: Vec<u16> = numbers.chunks_exact(2).map(|two| two_bytes(two[0], two[1])).collect();
    match numbers[..] {
        [low, high, step] => format!("{low} to {high} in steps of {step}"),
        [low, high] => format!("{low} to {high}"),
        _ => String::new(),
    }
}

/// The languages between which a body stands, as far as they are known.
pub struct Between {
    pub source: Shapes,
    pub target: Shapes,
}

/// The line of a field of a body; a long code goes on below it, behind so much indentation.
pub fn body_line(
    spot: &Spot,
    body: &[Spot],
    between: &Between,
    names: &Names,
    indent: usize,
) -> String {
    match (spot.tag, spot.contents) {
        (MAPPING_TAG, [source, target]) => {
            format!("mapping {} to {}", names.kind(*source), names.kind(*target))
        }
        (NUMBERED_MAPPING_TAG, [kind, number, target]) => {
            format!("mapping {} by number {number} to {}", names.kind(*kind), names.kind(*target))
        }
        (CLAUSE_TAG, [result, name, code @ ..]) => {
            clause_line([*result, *name, 0], code, body, between, names, indent)
        }
        (NUMBERED_CLAUSE_TAG, [result, name, number, code @ ..]) => {
            clause_line([*result, *name, *number], code, body, between, names, indent)
        }
        _ => spot.name(),
    }
}

/// The line of a clause: `1.4: 1.2(#1, #1)`, or with names `twice(x) = sequence(x, x)`.
fn clause_line(
    [result, name, number]: [u8; 3],
    code: &[u8],
    body: &[Spot],
    between: &Between,
    names: &Names,
    indent: usize,
) -> String {
    let by = if number == 0 { String::new() } else { format!(".{number}") };
    let mut head = format!("{}{by}", names.production(result, name));
    let arguments = between.source.arguments(result, name).filter(|_| !names.is_empty());
    let mut writer = CodeWriter::new(&between.target, names, code, arguments.map(<[u8]>::len));
    match arguments {
        Some(arguments) => {
            let words = (0..arguments.len()).map(|place| Nested::leaf(super::VARIABLES[place]));
            head = format!("{} = ", Nested::with(head, words.collect()).line());
        }
        None => head.push_str(": "),
    }
    let parts = writer.parts(mapped(body, result, number));
    let mut text = head.clone();
    for (place, part) in parts.iter().enumerate() {
        if place > 0 {
            text.push(' ');
        }
        part.put(indent, &mut text);
    }
    text
}

/// The kind that the mappings of a body map a kind to by a number.
fn mapped(body: &[Spot], kind: u8, number: u8) -> Option<u8> {
    body.iter().find_map(|spot| match (spot.tag, spot.contents) {
        (MAPPING_TAG, [source, target]) if *source == kind && number == 0 => Some(*target),
        (NUMBERED_MAPPING_TAG, [source, by, target]) if *source == kind && *by == number => {
            Some(*target)
        }
        _ => None,
    })
}

/// The line of a field of a load table.
pub fn table_line(spot: &Spot, names: &Names) -> String {
    let figures: Vec<String> =
        spot.contents[2..].chunks_exact(2).map(|two| signed(two).to_string()).collect();
    let (constant, factors) = (&figures[0], figures[1..].join(" "));
    let of = names.production(spot.contents[0], spot.contents[1]);
    format!("line of {of}: constant {constant}, factors ({factors})")
}

/// A term as nested text.
pub fn term_text(sign: &Sign) -> Nested {
    let number = sign.number.unwrap_or_default();
    let operands = || sign.operands.iter().map(term_text);
    let with = |first: Nested| [first].into_iter().chain(operands()).collect();
    match sign.sign {
        0x40 => Nested::leaf(format!("language {number}")),
        0x41 => Nested::leaf(format!("v{number}")),
        0x51 => Nested::leaf(format!("w{number}")),
        0x46 | 0x56 => Nested::with("let", with(Nested::leaf(format!("v{number}")))),
        0x47 | 0x57 => Nested::with("let", with(Nested::leaf(format!("w{number}")))),
        0x50 => {
            let body = Nested::leaf(format!("body {number}"));
            Nested::with("translation", operands().chain([body]).collect())
        }
        _ => Nested::with(sign.meaning(), operands().collect()),
    }
}

/// A node of a plan as nested text.
pub fn node_text(node: &Node, names: &Names) -> Nested {
    match node.sort {
        Sort::Token(least, greatest) if least == greatest => Nested::leaf(least.to_string()),
        Sort::Token(least, greatest) => Nested::leaf(format!("{least} to {greatest}")),
        Sort::Hidden => Nested::leaf("hidden"),
        Sort::Fault => Nested::leaf("?"),
        Sort::Production(name) => {
            let arguments = node.arguments.iter().map(|node| node_text(node, names)).collect();
            Nested::with(names.production(node.kind, name), arguments)
        }
    }
}

/// Lines of the notation, each indented by its depth.
pub struct Lines<'a> {
    names: &'a Names,
    pub text: String,
}

impl<'a> Lines<'a> {
    /// Starts with the first line.
    pub fn new(first: &str, names: &'a Names) -> Lines<'a> {
        Lines { names, text: format!("{first}\n") }
    }

    /// Adds a line at a depth.
    pub fn add(&mut self, depth: usize, line: &str) {
        self.text.extend(std::iter::repeat_n("  ", depth));
        self.text.push_str(line);
        self.text.push('\n');
    }

    /// Adds nested text at a depth.
    pub fn nested(&mut self, depth: usize, nested: &Nested) {
        self.text.extend(std::iter::repeat_n("  ", depth));
        nested.put(2 * depth, &mut self.text);
        self.text.push('\n');
    }

    /// Adds the entries of a language.
    fn language(&mut self, depth: usize, piece: &Piece) {
        for spot in piece.spots() {
            self.add(depth, &language_line(&spot, self.names));
        }
    }

    /// Adds the entries of a body between two languages.
    fn body(&mut self, depth: usize, piece: &Piece, between: &Between) {
        let spots = piece.spots();
        for spot in &spots {
            self.add(depth, &body_line(spot, &spots, between, self.names, 2 * depth));
        }
    }
}

/// A language in the notation.
pub fn language(bytes: &[u8], names: &Names) -> Result<String, Fault> {
    let piece = Piece::whole("language", bytes);
    piece.limit(LANGUAGE_LIMIT)?;
    piece.walk().try_for_each(|spot| language_entry(&piece, &spot?))?;
    let mut lines = Lines::new("language", names);
    lines.language(1, &piece);
    Ok(lines.text)
}

/// A translation in the notation.
pub fn translation(bytes: &[u8], names: &Names) -> Result<String, Fault> {
    let pieces = translation_pieces(bytes)?;
    let mut lines = Lines::new("translation", names);
    for (name, piece) in [("source", &pieces.source), ("target", &pieces.target)] {
        lines.add(1, name);
        lines.language(2, piece);
    }
    let between = super::shapes(&pieces.source, &pieces.target);
    lines.add(1, "body");
    lines.body(2, &pieces.body, &between);
    Ok(lines.text)
}

/// A pack in the notation.
pub fn pack(bytes: &[u8], names: &Names) -> Result<String, Fault> {
    let parts = pack_parts(bytes)?;
    let term = read_term(&parts.term, parts.languages.len(), parts.bodies.len()).ok();
    let mut lines = Lines::new("pack", names);
    for (number, piece) in parts.languages.iter().enumerate() {
        lines.add(1, &format!("language {number}"));
        lines.language(2, piece);
    }
    for (number, piece) in parts.bodies.iter().enumerate() {
        lines.add(1, &format!("body {number}"));
        lines.body(2, piece, &super::code::between(&parts.languages, term.as_ref(), number));
    }
    lines.add(1, "term");
    match term {
        Some(sign) => lines.nested(2, &term_text(&sign)),
        None => lines.add(2, &raw(parts.term.bytes)),
    }
    Ok(lines.text)
}

/// A load table in the notation.
pub fn table(bytes: &[u8], names: &Names) -> Result<String, Fault> {
    let piece = Piece::whole("table", bytes);
    let spots = table_spots(&piece)?;
    let mut lines = Lines::new("table", names);
    spots.iter().for_each(|spot| lines.add(1, &table_line(spot, names)));
    Ok(lines.text)
}
