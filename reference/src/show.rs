//! Files and plans in words, a line for each entry. What has broken fields is refused, and so is
//! a plan that is not legal; anything else is shown, whether or not an operation accepts it.

use crate::body::CLAUSE_TAG;
use crate::explain::{
    card_kinds, language_entry, pack_parts, read_term, table_spots, translation_pieces, Fault,
    Piece, Pieces, Sign, Spot,
};
use crate::index::ENTRY_BYTES;
use crate::language::{bit, Language, CLASS_TAG, KINDS, LANGUAGE_LIMIT, PRODUCTION_TAG};
use crate::names::Names;
use crate::notation::write::{body_line, hexadecimal, language_line, raw, table_line, Between};
use crate::notation::{shapes, shapes_in_pack, Source};
use crate::plans::{self, Form, Node, Sort};

/// So many nodes before a faulty one are shown with it, besides those that it stands in.
const SHOWN_BEFORE: usize = 6;

/// Lines, each indented by its depth.
#[derive(Default)]
struct Lines {
    text: String,
}

impl Lines {
    /// Adds a line at a depth.
    fn add(&mut self, depth: usize, line: &str) {
        self.text.extend(std::iter::repeat_n("  ", depth));
        self.text.push_str(line);
        self.text.push('\n');
    }

    /// Adds a title with the number of bytes that it stands for.
    fn title(&mut self, depth: usize, name: &str, bytes: usize) {
        let plural = if bytes == 1 { "" } else { "s" };
        self.add(depth, &format!("{name}, {bytes} byte{plural}"));
    }

    /// Adds the entries of a language, and the kinds that are only arguments.
    fn language(&mut self, depth: usize, piece: &Piece, names: &Names) {
        for spot in piece.spots() {
            self.add(depth, &language_line(&spot, names));
        }
        let draft = Language::decode(piece.bytes);
        let language = draft.map(|draft| draft.value).unwrap_or_default();
        let undefined = language.kinds() & !language.class_kinds() & !language.result_kinds();
        for kind in (0..KINDS as u8).filter(|&kind| undefined & bit(kind) != 0) {
            self.add(depth, &format!("kind {} is undefined", names.kind(kind)));
        }
    }

    /// Adds the entries of a body between two languages.
    fn body(&mut self, depth: usize, piece: &Piece, between: &Between, names: &Names) {
        let spots = piece.spots();
        for spot in &spots {
            let clause = if spot.key().0 == CLAUSE_TAG { "clause " } else { "" };
            let line = body_line(spot, &spots, between, names, 2 * depth);
            self.add(depth, &format!("{clause}{line}"));
        }
    }

    /// Adds a term, a line for each sign.
    fn term(&mut self, depth: usize, sign: &Sign) {
        self.add(depth, &format!("{:02X} {}", sign.sign, sign.meaning()));
        sign.operands.iter().for_each(|operand| self.term(depth + 1, operand));
    }

    /// Adds a node and its arguments.
    fn node(&mut self, depth: usize, node: &Node, names: &Names) {
        self.add(depth, &node_line(node, names));
        node.arguments.iter().for_each(|argument| self.node(depth + 1, argument, names));
    }
}

/// A node without its arguments.
fn node_line(node: &Node, names: &Names) -> String {
    let kind = names.kind(node.kind);
    match node.sort {
        Sort::Token(least, greatest) if least == greatest => format!("class {kind}: {least}"),
        Sort::Token(least, greatest) => format!("class {kind}: {least} to {greatest}"),
        Sort::Production(name) => format!("production {}", names.production(node.kind, name)),
        Sort::Hidden => format!("kind {kind}: hidden"),
        Sort::Fault => format!("kind {kind}: here"),
    }
}

/// A file or a plan in words.
pub fn show(source: Source, names: &Names) -> Result<String, Fault> {
    match source {
        Source::Language(file) => language(file, names),
        Source::Translation(file) => translation(file, names),
        Source::Pack(file) => pack(file, names),
        Source::Table(file) => table(file, names),
        Source::Card(file) => card(file, names),
        Source::Index(file) => Ok(index(file)),
        Source::Plan { language, root, plan, form } => {
            let node = plans::read(language, root, plan, form)?;
            let sort = match form {
                Form::Settled => "tree",
                Form::Loose => "loose plan",
                Form::Masked(_) => "masked plan",
            };
            let mut lines = Lines::default();
            lines.title(0, &format!("{sort} of kind {}", names.kind(node.kind)), plan.len());
            lines.node(1, &node, names);
            Ok(lines.text)
        }
    }
}

/// A language in words.
fn language(bytes: &[u8], names: &Names) -> Result<String, Fault> {
    let piece = Piece::whole("language", bytes);
    piece.limit(LANGUAGE_LIMIT)?;
    piece.walk().try_for_each(|spot| language_entry(&piece, &spot?))?;
    let mut lines = Lines::default();
    lines.title(0, "language", bytes.len());
    lines.language(1, &piece, names);
    Ok(lines.text)
}

/// A translation in words.
fn translation(bytes: &[u8], names: &Names) -> Result<String, Fault> {
    let pieces = translation_pieces(bytes)?;
    let mut lines = Lines::default();
    lines.title(0, "translation", bytes.len());
    for (name, piece) in [("source", &pieces.source), ("target", &pieces.target)] {
        lines.title(1, name, piece.bytes.len());
        lines.language(2, piece, names);
    }
    lines.title(1, "body", pieces.body.bytes.len());
    lines.body(2, &pieces.body, &shapes(&pieces.source, &pieces.target), names);
    Ok(lines.text)
}

/// Where two translations differ: what an entry is called, and the entry as each has it.
#[derive(Clone, Debug, PartialEq, Eq)]
pub struct Difference {
    pub name: String,
    pub first: Option<String>,
    pub second: Option<String>,
}

/// The first mapping or clause in which two translations differ, or else the first entry of their
/// sources, or of their targets. `None` if they are equal, or cannot be read.
pub fn difference(first: &[u8], second: &[u8], names: &Names) -> Option<Difference> {
    let (one, other) = (translation_pieces(first).ok()?, translation_pieces(second).ok()?);
    let differ = |within: &str, first: &Piece, second: &Piece| {
        let (first, second) = (first.spots(), second.spots());
        let spot = first_difference(&first, &second)?;
        let entry = |spots: &[Spot], pieces: &Pieces| {
            let found = spots.iter().find(|found| found.key() == spot.key())?;
            let between = shapes(&pieces.source, &pieces.target);
            Some(match found.tag {
                CLASS_TAG | PRODUCTION_TAG => language_line(found, names),
                _ => body_line(found, spots, &between, names, 0),
            })
        };
        let name = names.speak(&format!("{}{within}", spot.name()));
        Some(Difference { name, first: entry(&first, &one), second: entry(&second, &other) })
    };
    differ("", &one.body, &other.body)
        .or_else(|| differ(" of the source", &one.source, &other.source))
        .or_else(|| differ(" of the target", &one.target, &other.target))
}

/// The first entry, by its key, in which two rows of rising fields differ.
fn first_difference<'a>(first: &[Spot<'a>], second: &[Spot<'a>]) -> Option<Spot<'a>> {
    let lacks = |spot: &&Spot, others: &[Spot]| {
        !others.iter().any(|other| (other.tag, other.contents) == (spot.tag, spot.contents))
    };
    let one = first.iter().find(|spot| lacks(spot, second));
    let other = second.iter().find(|spot| lacks(spot, first));
    [one, other].into_iter().flatten().min_by_key(|spot| spot.key()).copied()
}

/// A load table in words.
fn table(bytes: &[u8], names: &Names) -> Result<String, Fault> {
    let piece = Piece::whole("table", bytes);
    let spots = table_spots(&piece)?;
    let mut lines = Lines::default();
    lines.title(0, "table", bytes.len());
    spots.iter().for_each(|spot| lines.add(1, &table_line(spot, names)));
    Ok(lines.text)
}

/// A card in words, whether or not its kinds rise.
fn card(bytes: &[u8], names: &Names) -> Result<String, Fault> {
    let kinds = card_kinds(bytes)?;
    let mut lines = Lines::default();
    lines.title(0, "card", bytes.len());
    kinds.iter().for_each(|kind| lines.add(1, &format!("kind {}", names.kind(*kind))));
    Ok(lines.text)
}

/// An index in words.
fn index(bytes: &[u8]) -> String {
    let mut lines = Lines::default();
    lines.title(0, "index", bytes.len());
    let entries = bytes.chunks_exact(ENTRY_BYTES);
    let rest = entries.remainder();
    for (place, entry) in entries.enumerate() {
        let number = |at: usize| u16::from_be_bytes([entry[at], entry[at + 1]]);
        lines.add(1, &format!("node {place}: start {}, length {}", number(0), number(2)));
    }
    if !rest.is_empty() {
        lines.add(1, &raw(rest));
    }
    lines.text
}

/// A pack in words.
fn pack(bytes: &[u8], names: &Names) -> Result<String, Fault> {
    let parts = pack_parts(bytes)?;
    let term = read_term(&parts.term, parts.languages.len(), parts.bodies.len());
    let mut lines = Lines::default();
    lines.title(0, "pack", bytes.len());
    for (number, piece) in parts.languages.iter().enumerate() {
        lines.title(1, &format!("language {number}"), piece.bytes.len());
        lines.language(2, piece, names);
    }
    for (number, piece) in parts.bodies.iter().enumerate() {
        lines.title(1, &format!("body {number}"), piece.bytes.len());
        let between = shapes_in_pack(&parts.languages, term.as_ref().ok(), number);
        lines.body(2, piece, &between, names);
    }
    lines.title(1, "term", parts.term.bytes.len());
    match term {
        Ok(sign) => lines.term(2, &sign),
        Err(_) => lines.add(2, &format!("not a term: {}", hexadecimal(parts.term.bytes))),
    }
    Ok(lines.text)
}

/// The part of a plan around the node that is at fault, which is marked, if there is one.
pub fn around(
    language: &[u8],
    root: u32,
    plan: &[u8],
    form: Form,
    names: &Names,
) -> Option<String> {
    let (node, fault) = plans::read_around(language, root, plan, form).ok()?;
    fault?;
    let mut list = vec![];
    flatten(&node, 0, &mut list);
    let marked = list.len() - 1;
    let mut text = String::new();
    let mut skipped = false;
    for (place, (depth, node)) in list.iter().enumerate() {
        let above = list[place + 1..].iter().all(|(other, _)| other > depth);
        if place + SHOWN_BEFORE < marked && !above {
            skipped = true;
            continue;
        }
        if std::mem::take(&mut skipped) {
            text.push_str("  ...\n");
        }
        let mark = if place == marked { ">" } else { " " };
        let indent = "  ".repeat(*depth);
        text.push_str(&format!("{mark} {indent}{}\n", node_line(node, names)));
    }
    Some(text)
}

/// Lists nodes in reading order with their depths.
fn flatten<'a>(node: &'a Node, depth: usize, list: &mut Vec<(usize, &'a Node)>) {
    list.push((depth, node));
    node.arguments.iter().for_each(|argument| flatten(argument, depth + 1, list));
}

#[cfg(test)]
mod tests {
    use super::*;
    use crate::examples::{language_c, pack_with_sum, sum};
    use crate::files::{clause, load as load_line, mapping, pack as packed, stepped_class};
    use crate::generate::{reduce_case, translation_file, tree_case, Random};

    /// A file in words, without names.
    fn shown(source: Source) -> Result<String, Fault> {
        show(source, &Names::default())
    }

    /// A tree in words, without names.
    fn tree(language: &[u8], root: u32, plan: &[u8]) -> Result<String, Fault> {
        shown(Source::Plan { language, root, plan, form: Form::Settled })
    }

    /// So many cases are generated.
    const CASES: u64 = 2000;

    #[test]
    fn a_written_step_is_shown() {
        let file = [stepped_class(3, 100, 200, 5), stepped_class(4, 1, 9, 1)].concat();
        let expected = "language, 20 bytes\n  class 3: 100 to 200 in steps of 5\n  \
                        class 4: 1 to 9 in steps of 1\n";
        assert_eq!(shown(Source::Language(&file)).as_deref(), Ok(expected));
    }

    #[test]
    fn a_load_table_is_shown_with_signs() {
        let file =
            [load_line(1, 1, -3, &[2]), load_line(1, 2, 0, &[]), load_line(2, 0, 7, &[1, -1])];
        let expected = "table, 27 bytes\n  line of 1.1: constant -3, factors (2)\n  \
                        line of 1.2: constant 0, factors ()\n  line of 2.0: constant 7, factors (1 -1)\n";
        assert_eq!(shown(Source::Table(&file.concat())).as_deref(), Ok(expected));
        assert_eq!(
            shown(Source::Table(&[0x24, 0, 3, 1, 1, 0])).map_err(|fault| fault.reason as u32),
            Err(18)
        );
    }

    #[test]
    fn undefined_kinds_and_words_are_shown() {
        let mut names = Names::default();
        names.add("1 block\n1.4 twice\n").expect("names");
        let file = crate::files::production(1, 4, &[1, 7]);
        let expected = "language, 7 bytes\n  production twice (block 7)\n  kind 7 is undefined\n";
        assert_eq!(show(Source::Language(&file), &names).as_deref(), Ok(expected));
    }

    #[test]
    fn the_faulty_node_is_marked() {
        let names = Names::default();
        let text = around(&language_c(), 1, &[2, 1, 0, 5, 3, 0, 241], Form::Settled, &names);
        let expected = "  production 1.2\n    production 1.1\n      class 2: 5\n    \
                        production 1.3\n>     kind 2: here\n";
        assert_eq!(text.as_deref(), Some(expected));
        assert_eq!(around(&language_c(), 1, &[1, 0, 5], Form::Settled, &names), None);
    }

    #[test]
    fn a_term_that_is_none_is_shown_as_bytes() {
        let body = [mapping(1, 1), clause(1, 4, &[1, 4])].concat();
        let text = shown(Source::Pack(&packed(&[], &[body], &[0x55, 0x40, 7])))
            .expect("the fields are whole");
        assert!(text.ends_with("  term, 3 bytes\n    not a term: 55 40 07\n"), "{text}");
    }

    #[test]
    fn the_examples_are_shown() {
        assert_eq!(shown(Source::Language(&language_c())).expect("a language").lines().count(), 5);
        assert_eq!(shown(Source::Translation(&sum())).expect("a translation").lines().count(), 19);
        assert_eq!(shown(Source::Pack(&pack_with_sum())).expect("a pack").lines().count(), 18);
        let shown = tree(&language_c(), 1, &[2, 1, 0, 5, 3, 0, 6]).expect("a tree");
        let expected = "tree of kind 1, 7 bytes\n  production 1.2\n    production 1.1\n      \
                        class 2: 5\n    production 1.3\n      class 2: 6\n";
        assert_eq!(shown, expected);
    }

    #[test]
    fn what_is_not_too_long_or_broken_is_shown() {
        for case in 0..CASES {
            let mut random = Random::new(case);
            let file = translation_file(&mut random);
            let number = crate::check_translation(&file).number();
            assert_eq!(
                shown(Source::Translation(&file)).is_err(),
                number == 1 || number == 2,
                "case {case}"
            );
            let file = reduce_case(&mut random).pack;
            let number = crate::reduce(&file, &mut [], &mut []).number();
            assert_eq!(
                shown(Source::Pack(&file)).is_err(),
                number == 1 || number == 2,
                "case {case}"
            );
        }
    }

    #[test]
    fn legal_trees_are_shown_whole() {
        for case in 0..CASES {
            let input = tree_case(&mut Random::new(case));
            let accepted = crate::check_tree(&input.language, input.root, &input.tree);
            let shown = tree(&input.language, input.root, &input.tree);
            assert_eq!(shown.is_ok(), accepted.number() == 0, "case {case}");
            let bytes = shown.unwrap_or_default();
            let bytes: usize = bytes.lines().skip(1).map(node_bytes).sum();
            assert!(bytes == input.tree.len() || accepted.number() != 0, "case {case}");
        }
    }

    /// How many bytes of a tree a line stands for.
    fn node_bytes(line: &str) -> usize {
        if line.trim_start().starts_with("class") {
            2
        } else {
            1
        }
    }
}
