//! Exports and imports: texts of trees of any height, texts that are no exports, and outputs that
//! are exact, too short or longer.

use super::damage::damage_bytes;
use super::languages::{full_language, language, language_file, written};
use super::long_trees::long_tree_case;
use super::random::Random;
use super::trees::{chain_language, tree_case, tree_of, Grower, TreeCase};
use crate::grammar::Grammar;
use crate::language::{read_language, Language, Production, KINDS, LANGUAGE_LIMIT};
use crate::tree::{root_kind, TREE_LEVELS};

/// The input of an export.
#[derive(Clone, Debug)]
pub struct ExportCase {
    pub language: Vec<u8>,
    pub root: u32,
    pub tree: Vec<u8>,
    pub output: usize,
}

/// The input of an import.
#[derive(Clone, Debug)]
pub struct ImportCase {
    pub language: Vec<u8>,
    pub root: u32,
    pub text: Vec<u8>,
    pub output: usize,
}

/// One case in so many has a long tree.
const CASES_FOR_A_LONG_ONE: usize = 300;

/// Appends the text of the first tree of a kind, at any depth and with any tokens, and gives the
/// bytes behind the tree; `None` if it breaks off or has an unknown name.
fn put_text<'a>(
    grammar: &Grammar,
    kind: u8,
    tree: &'a [u8],
    text: &mut String,
) -> Option<&'a [u8]> {
    if grammar.class(kind).is_some() {
        let (value, rest) = tree.split_first_chunk()?;
        text.push_str(&format!("<t{kind}>{}</t{kind}>", u16::from_be_bytes(*value)));
        return Some(rest);
    }
    let (&name, mut rest) = tree.split_first()?;
    let place = grammar.place(kind, name)?;
    text.push_str(&format!("<x{kind}.{name}>"));
    for &argument in grammar.production(place).arguments() {
        rest = put_text(grammar, argument, rest, text)?;
    }
    text.push_str(&format!("</x{kind}.{name}>"));
    Some(rest)
}

/// The text of a tree that is legal but for its height and its tokens.
fn text_of(language: &Language, kind: u8, tree: &[u8]) -> Option<Vec<u8>> {
    let mut text = String::new();
    let rest = put_text(&Grammar::new(language), kind, tree, &mut text)?;
    rest.is_empty().then(|| text.into_bytes())
}

/// The text of a case whose tree is legal but for its height and its tokens.
pub fn lenient_text(case: &TreeCase) -> Option<Vec<u8>> {
    let language = read_language(&case.language).ok()?;
    text_of(&language, root_kind(&language, case.root).ok()?, &case.tree)
}

/// An output length: often exact or one short of it.
fn output_length(random: &mut Random, exact: usize) -> usize {
    match random.below(8) {
        0..=2 => exact,
        3 | 4 => exact.saturating_sub(1),
        5 => random.below(exact + 1),
        _ => exact + random.below(20),
    }
}

/// A language, a root, a tree and an output length.
pub fn export_case(random: &mut Random) -> ExportCase {
    let long = random.below(CASES_FOR_A_LONG_ONE) == 0;
    let case = if long { long_tree_case(random) } else { tree_case(random) };
    let exact = lenient_text(&case).map_or(30, |text| text.len());
    let output = output_length(random, exact);
    let TreeCase { language, root, tree } = case;
    ExportCase { language, root, tree, output }
}

/// A place at which the rest of the text passes a test, if there is one.
fn place_where(random: &mut Random, text: &[u8], test: fn(&[u8]) -> bool) -> Option<usize> {
    let first = random.below(text.len().max(1));
    let mut places = (first..text.len()).chain(0..first);
    places.find(|&place| test(&text[place..]))
}

/// Puts other bytes in place of so many at a place.
fn replace(text: &mut Vec<u8>, place: usize, count: usize, bytes: &[u8]) {
    text.splice(place..place + count, bytes.iter().copied());
}

/// Where a number starts, how many digits it has, and its value.
fn some_number(random: &mut Random, text: &[u8]) -> Option<(usize, usize, u64)> {
    let starts = |rest: &[u8]| matches!(rest, [b'x' | b't' | b'.' | b'>', b'0'..=b'9', ..]);
    let start = place_where(random, text, starts)? + 1;
    let count = text[start..].iter().take_while(|byte| byte.is_ascii_digit()).count();
    let digits = std::str::from_utf8(&text[start..start + count]).expect("digits");
    Some((start, count, digits.parse().ok()?))
}

/// Changes a number: another value, one that is equal in its last bytes, or other digits of it.
fn damage_number(random: &mut Random, text: &mut Vec<u8>) {
    let Some((start, count, value)) = some_number(random, text) else { return };
    let other = match random.below(9) {
        0 => format!("0{value}"),
        1 => format!("+{value}"),
        2 => format!("{value}.0"),
        3 => format!("{}", value + 1),
        4 => format!("{}", value.saturating_sub(1)),
        5 => format!("{}", value + (1 << random.pick(&[8, 16, 32]))),
        6 => format!(" {value}"),
        7 => String::new(),
        _ => format!("{value}0"),
    };
    replace(text, start, count, other.as_bytes());
}

/// Makes of an empty element one tag, or of a tag one with a space or an attribute.
fn damage_tag(random: &mut Random, text: &mut Vec<u8>) {
    let empty = place_where(random, text, |rest| rest.starts_with(b"></"));
    match (empty, random.below(4)) {
        (Some(place), 0 | 1) => {
            let behind = text[place..].iter().skip(1).position(|&byte| byte == b'>');
            replace(text, place, behind.map_or(1, |behind| behind + 1), b"/");
        }
        (_, choice) => {
            if let Some(place) = place_where(random, text, |rest| rest[0] == b'>') {
                let more: &[u8] = if choice % 2 == 0 { b" " } else { b" a=\"1\"" };
                replace(text, place, 0, more);
            }
        }
    }
}

/// Changes the name in a closing tag, or leaves the tag out.
fn damage_close(random: &mut Random, text: &mut Vec<u8>) {
    let Some(place) = place_where(random, text, |rest| rest.starts_with(b"</")) else { return };
    let length = text[place..].iter().position(|&byte| byte == b'>').map_or(2, |end| end + 1);
    match random.below(4) {
        0 => replace(text, place, length, b""),
        1 => replace(text, place + length - 2, 1, b"7"),
        2 if length > 3 => replace(text, place + 2, 1, random.pick(&[b"x", b"t", b"X"])),
        _ => replace(text, place, length, b"</x1.1>"),
    }
}

/// Adds something that XML allows and an export has not.
fn add_foreign(random: &mut Random, text: &mut Vec<u8>) {
    let pieces: [&[u8]; 8] =
        [b" ", b"\n", b"\t", b"<!---->", b"<?p?>", b"<x1.0></x1.0>", b"&#48;", b"\0"];
    let piece = random.pick(&pieces);
    let place = match random.below(3) {
        0 => 0,
        1 => text.len(),
        _ => random.below(text.len() + 1),
    };
    replace(text, place, 0, piece);
}

/// Damages a text once.
fn damage_text(random: &mut Random, text: &mut Vec<u8>) {
    match random.below(7) {
        0 | 1 => damage_number(random, text),
        2 => damage_tag(random, text),
        3 => damage_close(random, text),
        4 => add_foreign(random, text),
        5 => text.truncate(random.below(text.len() + 1)),
        _ => damage_bytes(random, text),
    }
}

/// What stands at the end of a chain of elements: a production without the deep argument, another
/// text, or nothing.
fn chain_bottom(random: &mut Random, language: &Language, kind: u8) -> String {
    let ends: Vec<&Production> =
        language.productions.iter().filter(|p| !p.arguments().contains(&kind)).collect();
    match random.below(8) {
        0 => String::new(),
        1 => format!("<x{kind}.99>"),
        2 => "<".to_string(),
        _ => {
            let end = random.pick(&ends);
            chain_level(random, language, end, "")
        }
    }
}

/// The element of a production of a chain around the text of its deep argument.
fn chain_level(random: &mut Random, language: &Language, of: &Production, below: &str) -> String {
    let token = language.classes[0].kind;
    let mut text = format!("<x{}.{}>", of.result, of.name);
    for &kind in of.arguments() {
        match kind {
            _ if kind == of.result => text.push_str(below),
            _ if kind == token => {
                let value = random.pick(&[5, 7, 7, 7, 7, 9, 10]);
                text.push_str(&format!("<t{token}>{value}</t{token}>"));
            }
            _ => text.push_str(random.pick(&["", "", "<", "<x1.1></x1.1>"])),
        }
    }
    text + &format!("</x{}.{}>", of.result, of.name)
}

/// A text of a chain of about 64 elements; it may break off behind the last.
fn chain_text(random: &mut Random) -> ImportCase {
    let (language, kind) = chain_language(random);
    let links: Vec<&Production> =
        language.productions.iter().filter(|p| p.arguments().contains(&kind)).collect();
    let levels = TREE_LEVELS - 3 + random.below(5);
    let mut text = chain_bottom(random, &language, kind);
    for _ in 0..levels {
        let link = random.pick(&links);
        text = chain_level(random, &language, link, &text);
    }
    let mut text = text.into_bytes();
    if random.percent(20) {
        damage_text(random, &mut text);
    }
    let output = output_length(random, 3 * levels);
    ImportCase { language: written(random, &language), root: u32::from(kind), text, output }
}

/// A language that is to be refused, mostly, with a short text.
fn refused_language_case(random: &mut Random) -> ImportCase {
    let language = language_file(random);
    let text = random.pick(&[&b""[..], b"<", b"<x1.1></x1.1>", b"<t1>1</t1>"]).to_vec();
    ImportCase { language, root: random.below(34) as u32, text, output: random.below(4) }
}

/// The root under which a text of a kind is imported: mostly the kind.
fn import_root(random: &mut Random, language: &Language, kind: u8) -> u32 {
    let kinds = language.kinds();
    let others: Vec<u8> = (0..KINDS as u8).filter(|kind| kinds >> kind & 1 == 1).collect();
    match random.below(20) {
        0 => random.below(KINDS + 2) as u32,
        1 => random.pick(&[32, 256 + u32::from(kind), u32::MAX]),
        2 => u32::from(random.pick(&others)),
        _ => u32::from(kind),
    }
}

/// An import of the text of a grown tree, which may be too high, or have tokens out of range.
fn grown_text_case(random: &mut Random) -> Option<ImportCase> {
    let language = match random.below(30) {
        0 => full_language(random, LANGUAGE_LIMIT),
        _ => language(random),
    };
    let mut grower = Grower::new(&language);
    grower.wild = random.percent(20);
    let grown = grower.grown_kinds();
    if grown.is_empty() {
        return None;
    }
    let kind = random.pick(&grown);
    let tree = tree_of(random, &mut grower, kind);
    let mut text = text_of(&language, kind, &tree)?;
    if random.percent(35) {
        damage_text(random, &mut text);
    }
    let (root, output) = (import_root(random, &language, kind), output_length(random, tree.len()));
    Some(ImportCase { language: written(random, &language), root, text, output })
}

/// An import of the text of a long tree, if it has one; the text may be damaged.
fn long_text_case(random: &mut Random) -> Option<ImportCase> {
    let case = long_tree_case(random);
    let mut text = lenient_text(&case)?;
    if random.percent(35) {
        damage_text(random, &mut text);
    }
    let output = output_length(random, case.tree.len());
    Some(ImportCase { language: case.language, root: case.root, text, output })
}

/// A language, a root, a text and an output length.
pub fn import_case(random: &mut Random) -> ImportCase {
    let case = match random.below(CASES_FOR_A_LONG_ONE) {
        0 => long_text_case(random),
        1..=24 => Some(chain_text(random)),
        25..=54 => Some(refused_language_case(random)),
        _ => grown_text_case(random),
    };
    case.unwrap_or_else(|| chain_text(random))
}
