//! A search for a source tree with its inputs: what the library answers, and where the fault is.

use crate::arguments::{number, Call};
use crate::given::Given;
use crate::job::{root, run_limit, tree, Job, Refused, Translator};
use crate::{Failure, Streams};
use algebra::{Kind, Levels, Refusal, Translation, Tree, SEARCH_LEVELS};
use reference::explain::{self, Fault};
use reference::names::Names;
use reference::plans::Form;
use reference::show;
use reference::steps::{languages, mapped_kind};

/// The place of the levels among the operands.
const LEVELS_PLACE: usize = 3;

/// The inputs of a search.
pub struct Search {
    translator: Translator,
    root: u32,
    tree: Vec<u8>,
    /// How many levels the source tree may have; without it, as few as there can be.
    levels: Option<u32>,
    limit: usize,
}

impl Search {
    /// Reads the inputs; numbers are looked at before any file.
    pub fn load(call: &Call, streams: &mut Streams) -> Result<Box<dyn Job>, Failure> {
        let levels = call.operands.get(LEVELS_PLACE);
        let levels = levels.map(|text| number("number of levels", text)).transpose();
        let levels = levels.map_err(|what| call.misuse(&what))?;
        let (root, translator) = (root(call)?, Translator::load(call, streams)?);
        let (tree, limit) = (tree(call, streams)?, run_limit(call));
        Ok(Box::new(Search { translator, root, tree, levels, limit }))
    }

    /// What the library finds within so many levels.
    fn within(&self, translation: &[u8], levels: u32) -> Result<Vec<u8>, Refusal> {
        let (translation, tree) = (Translation(translation), Tree(&self.tree));
        algebra::search_to_vec(translation, Kind(self.root), tree, Levels(levels), self.limit)
    }

    /// What it finds within the least number of levels at which there is a source tree, and that
    /// number.
    fn least(&self, translation: &[u8]) -> Result<Given, Refusal> {
        for levels in 1..SEARCH_LEVELS {
            match self.within(translation, levels) {
                Err(Refusal::NoSource) => (),
                found => return found.map(|tree| Given::Found { tree, levels }),
            }
        }
        let levels = SEARCH_LEVELS;
        self.within(translation, levels).map(|tree| Given::Found { tree, levels })
    }

    /// Where the second implementation finds a fault within so many levels.
    fn fault_within(&self, translation: &[u8], levels: u32) -> Option<Fault> {
        explain::search(translation, self.root, &self.tree, levels, self.limit)
    }

    /// Where it finds a fault within the least number of levels at which there is a source tree.
    fn least_fault(&self, translation: &[u8]) -> Option<Fault> {
        let found = (1..SEARCH_LEVELS).map(|levels| self.fault_within(translation, levels));
        let none = |fault: &Option<Fault>| {
            fault.as_ref().is_some_and(|fault| fault.reason as u32 == Refusal::NoSource.number())
        };
        let mut other = found.skip_while(none);
        other.next().unwrap_or_else(|| self.fault_within(translation, SEARCH_LEVELS))
    }
}

impl Job for Search {
    fn length(&self) -> usize {
        self.tree.len()
    }

    fn answer(&self) -> Result<Given, Refused> {
        let translation = self.translator.translation()?;
        Ok(match self.levels {
            Some(levels) => Given::Bytes(self.within(&translation, levels)?),
            None => self.least(&translation)?,
        })
    }

    fn fault(&self) -> Option<Fault> {
        match (self.translator.explained(), self.levels) {
            (Err(fault), _) => Some(fault),
            (Ok(found), Some(levels)) => self.fault_within(&found, levels),
            (Ok(found), None) => self.least_fault(&found),
        }
    }

    fn result_in(&self, _: &Given) -> Option<(Vec<u8>, u32)> {
        let translation = self.translator.translation().ok()?;
        Some((languages(&translation)?.0.to_vec(), self.root))
    }

    fn around(&self, names: &Names) -> Option<String> {
        let translation = self.translator.explained().ok()?;
        let root = mapped_kind(&translation, self.root, 0)?;
        show::around(languages(&translation)?.1, root, &self.tree, Form::Settled, names)
    }
}
