//! Faults of trees, and of runs.

use super::{language, nodes, translation, Fault, Piece};
use crate::grammar::Grammar;
use crate::language::Language;
use crate::outcome::Refusal;
use crate::run::{result_length, root_rank};
use crate::translation::Translation;
use crate::tree::root_kind;

/// Looks for any fault of a language, a root and a tree.
pub fn check(language: &[u8], root: u32, tree: &[u8]) -> Result<(), Fault> {
    let piece = Piece::whole("language", language);
    language::check(&piece)?;
    check_rooted(&translation::decoded(&piece)?, "language", root, tree).map(|_| ())
}

/// Looks for any fault of a run by a number, with an output of so many bytes.
pub fn check_run(
    bytes: &[u8],
    root: u32,
    number: u32,
    tree: &[u8],
    output: usize,
) -> Result<(), Fault> {
    let translation = translation::well_formed(bytes)?;
    check_number(&translation, known_root(&translation.source, "source", root)?, number)?;
    let root = check_rooted(&translation.source, "source", root, tree)?;
    match result_length(&translation, root, number as u8, tree) {
        Some(length) if length > output as u64 || length == u64::MAX => {
            let more = if length == u64::MAX { " or more" } else { "" };
            let what = format!("its length is {output}, and that of the result {length}{more}");
            Err(Piece::whole("output", &[]).fault_somewhere(Refusal::Output, what))
        }
        _ => Ok(()),
    }
}

/// Refuses a number that a root kind lacks.
fn check_number(translation: &Translation, root: u8, number: u32) -> Result<(), Fault> {
    let lacks = |reason| {
        let what = format!("kind {root} has no number {number}");
        Piece::whole("number", &[]).fault_somewhere(reason, what)
    };
    root_rank(translation, root, number).map(|_| ()).map_err(lacks)
}

/// The root as a kind, which must be in the language.
pub fn known_root(language: &Language, name: &str, root: u32) -> Result<u8, Fault> {
    root_kind(language, root).map_err(|reason| {
        let what = format!("kind {root} is not in the {name}");
        Piece::whole("root", &[]).fault_somewhere(reason, what)
    })
}

/// Looks for a fault of the root and the tree; gives the root as a kind.
pub fn check_rooted(language: &Language, name: &str, root: u32, tree: &[u8]) -> Result<u8, Fault> {
    let kind = known_root(language, name, root)?;
    nodes::check_tree(&Grammar::new(language), kind, tree)?;
    Ok(kind)
}
