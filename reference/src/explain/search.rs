//! Faults of searches.

use super::{translation, tree, Fault, Piece};
use crate::outcome::Refusal;
use crate::search::{found_length, least_levels, MOST_LEVELS};
use crate::translation::Translation;

/// Looks for any fault of a search within a limit of levels, with an output of so many bytes.
pub fn check(bytes: &[u8], root: u32, tree: &[u8], limit: u32, output: usize) -> Result<(), Fault> {
    let translation = translation::well_formed(bytes)?;
    translation::check_plain(&translation, "a search")?;
    let root = tree::known_root(&translation.source, "source", root)?;
    let mapped = u32::from(translation.mapped(root));
    tree::check_rooted(&translation.target, "target", mapped, tree)?;
    if !(1..=MOST_LEVELS as u32).contains(&limit) {
        let what = format!("{limit} is not from 1 to {MOST_LEVELS}");
        return Err(Piece::whole("limit of levels", &[]).fault_somewhere(Refusal::Limits, what));
    }
    check_least(&translation, root, tree, limit as usize)?;
    check_length(found_length(&translation, root, tree, limit as usize), output)
}

/// Looks for a source tree within the limit; if there is none, tells how many levels there should be.
fn check_least(
    translation: &Translation,
    root: u8,
    tree: &[u8],
    limit: usize,
) -> Result<(), Fault> {
    let other = match least_levels(translation, root, tree) {
        Some(least) if least <= limit => return Ok(()),
        Some(least) => format!("; within {least} one does"),
        None if limit < MOST_LEVELS => format!("; within {MOST_LEVELS} none does either"),
        None => String::new(),
    };
    let what = format!("no source tree within the limit of {limit} runs to it{other}");
    Err(Piece::whole("tree", tree).fault_somewhere(Refusal::NoSource, what))
}

/// Looks for a source tree that does not fit the output.
fn check_length(length: u64, output: usize) -> Result<(), Fault> {
    if length <= output as u64 {
        return Ok(());
    }
    let more = if length == u64::MAX { " or more" } else { "" };
    let what = format!("its length is {output}, and that of the source tree {length}{more}");
    Err(Piece::whole("output", &[]).fault_somewhere(Refusal::Output, what))
}
