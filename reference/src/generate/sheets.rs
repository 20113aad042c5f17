//! Sheets with the export of a tree and what the sheet must make of it.

use super::languages::encoded;
use super::random::Random;
use super::translations::run_case;
use crate::translation::read_translation;
use crate::xslt::sheet;
use crate::{export, run};

/// A sheet, the export of a tree and the export of its run.
#[derive(Clone, Debug)]
pub struct SheetCase {
    pub sheet: String,
    pub source: Vec<u8>,
    pub expected: Vec<u8>,
}

/// Trees with longer exports, or longer runs, are left out.
const MOST_TEXT: usize = 1 << 16;

/// The export of a tree, if it is accepted and not too long.
fn exported(language: &[u8], root: u32, tree: &[u8]) -> Option<Vec<u8>> {
    let mut output = vec![0; MOST_TEXT];
    let outcome = export(language, root, tree, &mut output);
    output.truncate(outcome.length() as usize);
    (outcome.number() == 0).then_some(output)
}

/// A case from a random run, if the run and both exports are accepted.
fn try_sheet_case(random: &mut Random) -> Option<SheetCase> {
    let case = run_case(random);
    let mut output = vec![0; MOST_TEXT];
    let outcome = run(&case.translation, case.root, 0, &case.tree, &mut output);
    if outcome.number() != 0 {
        return None;
    }
    let translation = read_translation(&case.translation).expect("it has been run");
    let root = u32::from(translation.mapped(case.root as u8));
    Some(SheetCase {
        sheet: sheet(&case.translation).expect("it has been run"),
        source: exported(&encoded(&translation.source), case.root, &case.tree)?,
        expected: exported(
            &encoded(&translation.target),
            root,
            &output[..outcome.length() as usize],
        )?,
    })
}

/// A case from a random run.
pub fn sheet_case(random: &mut Random) -> SheetCase {
    loop {
        if let Some(case) = try_sheet_case(random) {
            return case;
        }
    }
}
