//! Trees as XML.

use crate::output::{accepted_length, in_output};
use crate::{raw, Kind, Language, Refusal, Tree, Xml};

/// The most bytes of text for a byte of a tree: those of `<x31.255></x31.255>`.
const TEXT_MOST: usize = 19;
/// The fewest bytes of text for a byte of a tree: half of those of `<t0>0</t0>`.
const TEXT_LEAST: usize = 5;

/// Writes a tree of the root kind as XML. The text is put at the start of the output; gives its
/// length.
///
/// Production 1.4 is an element `x1.4` around its arguments, a token of kind 2 with value 5 is
/// `<t2>5</t2>`, and there is nothing else. Behind the text, and after a refusal, the output is as
/// it was.
///
/// # Errors
///
/// Refusals: 1 to 4, 14 to 17.
///
/// ```
/// use algebra::write::{production, token};
/// use algebra::{export, Kind, Language, Refusal, Tree};
///
/// const BLOCK: Kind = Kind(1);
/// const ROW: u8 = 1;
/// let strap = Language(include_bytes!("../../examples/strap/strap.language"));
///
/// let row = production(ROW, [token(5)]);
/// let mut output = [0; 30];
/// let length = export(strap, BLOCK, Tree(&row), &mut output)?;
/// assert_eq!(&output[..length], b"<x1.1><t2>5</t2></x1.1>");
/// assert_eq!(export(strap, BLOCK, Tree(&row), &mut []), Err(Refusal::OutputTooShort));
/// # Ok::<(), Refusal>(())
/// ```
pub fn export(
    language: Language,
    root: Kind,
    tree: Tree,
    output: &mut [u8],
) -> Result<usize, Refusal> {
    accepted_length(raw::export(language.0, root.0, tree.0, output))
}

/// Writes a tree of the root kind as XML, with an output that is allocated and has at most `limit`
/// bytes. Where memory has no room for it, the answer is 17.
///
/// # Errors
///
/// Refusals: 1 to 4, 14 to 17.
///
/// ```
/// use algebra::write::{production, token};
/// use algebra::{export_to_vec, Kind, Language, Tree};
///
/// const BLOCK: Kind = Kind(1);
/// const REST: u8 = 3;
/// let strap = Language(include_bytes!("../../examples/strap/strap.language"));
///
/// let rest = production(REST, [token(2)]);
/// let text = export_to_vec(strap, BLOCK, Tree(&rest), 1000)?;
/// assert_eq!(text, b"<x1.3><t2>2</t2></x1.3>");
/// # Ok::<(), algebra::Refusal>(())
/// ```
pub fn export_to_vec(
    language: Language,
    root: Kind,
    tree: Tree,
    limit: usize,
) -> Result<Vec<u8>, Refusal> {
    let room = tree.0.len().saturating_mul(TEXT_MOST).min(limit);
    in_output(room, |output| export(language, root, tree, output))
}

/// Reads the tree of the root kind whose export the text is. The tree is put at the start of the
/// output; gives its length.
///
/// Only what [`export`] gives is accepted, byte for byte: no spaces, no leading zeros, no line end.
/// Behind the tree, and after a refusal, the output is as it was.
///
/// # Errors
///
/// Refusals: 1 to 4, 14, 16, 17, 20.
///
/// ```
/// use algebra::write::{production, token};
/// use algebra::{import, Kind, Language, Refusal, Xml};
///
/// const BLOCK: Kind = Kind(1);
/// const ROW: u8 = 1;
/// let strap = Language(include_bytes!("../../examples/strap/strap.language"));
///
/// let mut output = [0; 3];
/// let text = Xml(b"<x1.1><t2>5</t2></x1.1>");
/// assert_eq!(import(strap, BLOCK, text, &mut output), Ok(3));
/// assert_eq!(output[..], production(ROW, [token(5)]));
/// let padded = Xml(b"<x1.1><t2>05</t2></x1.1>");
/// assert_eq!(import(strap, BLOCK, padded, &mut output), Err(Refusal::NotAnExport));
/// ```
pub fn import(
    language: Language,
    root: Kind,
    text: Xml,
    output: &mut [u8],
) -> Result<usize, Refusal> {
    accepted_length(raw::import(language.0, root.0, text.0, output))
}

/// Reads the tree of the root kind whose export the text is, with an output that is allocated and
/// has at most `limit` bytes. Where memory has no room for it, the answer is 17.
///
/// # Errors
///
/// Refusals: 1 to 4, 14, 16, 17, 20.
///
/// ```
/// use algebra::write::{production, token};
/// use algebra::{import_to_vec, Kind, Language, Xml};
///
/// const BLOCK: Kind = Kind(1);
/// const REST: u8 = 3;
/// let strap = Language(include_bytes!("../../examples/strap/strap.language"));
///
/// let rest = import_to_vec(strap, BLOCK, Xml(b"<x1.3><t2>2</t2></x1.3>"), 1000)?;
/// assert_eq!(rest, production(REST, [token(2)]));
/// # Ok::<(), algebra::Refusal>(())
/// ```
pub fn import_to_vec(
    language: Language,
    root: Kind,
    text: Xml,
    limit: usize,
) -> Result<Vec<u8>, Refusal> {
    let room = (text.0.len() / TEXT_LEAST).min(limit);
    in_output(room, |output| import(language, root, text, output))
}
