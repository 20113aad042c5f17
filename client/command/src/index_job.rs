//! An operation on a tree with its index.

use crate::arguments::{number, Call};
use crate::given::Given;
use crate::input::read_file;
use crate::job::{operand, root, tree, Job, Refused, TREE_BYTES};
use crate::language_file::LanguageFile;
use crate::tree_job::CARD_BYTES;
use crate::{Failure, Streams};
use algebra::{
    in_output, BlockPath, Card, Edited, Index, Kind, Language, NewBlock, Refusal, Tree,
    ENTRY_BYTES, INDEXED_BYTES,
};
use reference::explain::{self, Fault, Indexed};
use reference::names::Names;
use reference::plans::Form;
use reference::show;
use std::borrow::Cow;
use std::ffi::{OsStr, OsString};

/// The places of the path among the operands, and of the new block of an edit.
const PATH_PLACE: usize = 3;
const BLOCK_PLACE: usize = 4;
/// No index is longer.
const INDEX_BYTES: usize = ENTRY_BYTES * INDEXED_BYTES;

/// The inputs of one operation.
pub struct IndexJob {
    operation: Operation,
    language: LanguageFile,
    root: u32,
    tree: Vec<u8>,
    /// The index that is stored; without it one is built.
    index: Option<Vec<u8>>,
    /// The length of each output.
    limit: usize,
}

/// What is done, with what else it takes.
enum Operation {
    Index,
    Block { path: Vec<u8> },
    Node { path: Vec<u8> },
    Edit { path: Vec<u8>, card: Option<Vec<u8>>, block: Vec<u8> },
}

/// The file that an option names, if it does, of which so many bytes matter.
fn optional(
    name: &Option<OsString>,
    call: &Call,
    limit: usize,
    streams: &mut Streams,
) -> Result<Option<Vec<u8>>, Failure> {
    let Some(name) = name else { return Ok(None) };
    read_file(name, call.options.format(), limit, streams).map(Some)
}

/// A path: argument numbers with points between them, or `-` or nothing for the empty one.
fn path(call: &Call) -> Result<Vec<u8>, Failure> {
    let text = &call.operands[PATH_PLACE];
    path_of(text).ok_or_else(|| {
        let what = format!("{} is no path: numbers from 0 to 255, with points", text.display());
        call.misuse(&what)
    })
}

/// The numbers of a path, if the text is one.
fn path_of(text: &OsStr) -> Option<Vec<u8>> {
    if text.is_empty() || text == "-" {
        return Some(vec![]);
    }
    let part = |part| number("path number", OsStr::new(part)).ok();
    text.to_str()?.split('.').map(part).collect()
}

impl IndexJob {
    /// Reads language, root and tree, and the index if one is named.
    fn load(call: &Call, streams: &mut Streams, operation: Operation) -> Result<IndexJob, Failure> {
        let (root, language) = (root(call)?, LanguageFile::load(call, streams)?);
        let tree = tree(call, streams)?;
        let index = optional(&call.options.index, call, INDEX_BYTES, streams)?;
        let limit = call.options.limit.unwrap_or(INDEX_BYTES).min(INDEX_BYTES);
        Ok(IndexJob { operation, language, root, tree, index, limit })
    }

    /// Reads the inputs of an index.
    pub fn load_index(call: &Call, streams: &mut Streams) -> Result<Box<dyn Job>, Failure> {
        Ok(Box::new(IndexJob::load(call, streams, Operation::Index)?))
    }

    /// Reads the inputs of a lookup; the path is looked at before any file.
    pub fn load_block(call: &Call, streams: &mut Streams) -> Result<Box<dyn Job>, Failure> {
        let operation = Operation::Block { path: path(call)? };
        Ok(Box::new(IndexJob::load(call, streams, operation)?))
    }

    /// Reads the inputs of the lookup of a node; the path is looked at before any file.
    pub fn load_node(call: &Call, streams: &mut Streams) -> Result<Box<dyn Job>, Failure> {
        let operation = Operation::Node { path: path(call)? };
        Ok(Box::new(IndexJob::load(call, streams, operation)?))
    }

    /// Reads the inputs of an edit; the path is looked at before any file.
    pub fn load_edit(call: &Call, streams: &mut Streams) -> Result<Box<dyn Job>, Failure> {
        let path = path(call)?;
        let mut job = IndexJob::load(call, streams, Operation::Index)?;
        let block = operand(call, BLOCK_PLACE, TREE_BYTES, streams)?;
        let card = optional(&call.options.card, call, CARD_BYTES, streams)?;
        job.operation = Operation::Edit { path, card, block };
        Ok(Box::new(job))
    }

    /// The index that is stored, or else the one that is built. Where that is refused there is none,
    /// and what takes it is refused before it is looked at.
    fn index(&self, language: &[u8]) -> Cow<'_, [u8]> {
        match &self.index {
            Some(index) => Cow::Borrowed(index),
            None => Cow::Owned(self.built(language, INDEX_BYTES).unwrap_or_default()),
        }
    }

    /// The index that is built, in an output of so many bytes.
    fn built(&self, language: &[u8], limit: usize) -> Result<Vec<u8>, Refusal> {
        let (language, root, tree) = (Language(language), Kind(self.root), Tree(&self.tree));
        in_output(limit, |output| algebra::index(language, root, tree, output))
    }

    /// What an edit gives.
    fn edited(
        &self,
        language: &[u8],
        path: BlockPath,
        card: Card,
        block: NewBlock,
    ) -> Result<Edited, Refusal> {
        let (mut plan, mut index) = (vec![0; self.limit], vec![0; self.limit]);
        let (tree, old) = (Tree(&self.tree), self.index(language));
        let (language, root, old) = (Language(language), Kind(self.root), Index(&old));
        let outputs = (&mut plan[..], &mut index[..]);
        let lengths =
            algebra::edit(language, root, tree, old, path, card, block, outputs.0, outputs.1)?;
        plan.truncate(lengths.plan_length);
        index.truncate(lengths.index_length);
        Ok(Edited { plan, index })
    }
}

impl Job for IndexJob {
    fn length(&self) -> usize {
        self.tree.len()
    }

    fn answer(&self) -> Result<Given, Refused> {
        let language = &self.language.language()?[..];
        let (root, tree) = (Kind(self.root), Tree(&self.tree));
        Ok(match &self.operation {
            Operation::Index => Given::Bytes(self.built(language, self.limit)?),
            Operation::Block { path } => {
                let (index, path) = (self.index(language), BlockPath(path));
                algebra::block(Language(language), root, tree, Index(&index), path)?.into()
            }
            Operation::Node { path } => {
                let (index, path) = (self.index(language), BlockPath(path));
                Given::Node(algebra::node(Language(language), root, tree, Index(&index), path)?)
            }
            Operation::Edit { path, card, block } => {
                let card = card.as_deref().map_or(Card::ALL, Card);
                let (path, block) = (BlockPath(path), NewBlock(block));
                Given::Edited(self.edited(language, path, card, block)?)
            }
        })
    }

    fn fault(&self) -> Option<Fault> {
        let IndexJob { root, tree, index, limit, .. } = self;
        let language = match self.language.explained() {
            Ok(language) => language,
            Err(fault) => return Some(fault),
        };
        let index = index.as_deref();
        let indexed = Indexed { language: &language, root: *root, tree, index, card: None };
        match &self.operation {
            Operation::Index => explain::index(&indexed, *limit),
            Operation::Block { path } | Operation::Node { path } => explain::block(&indexed, path),
            Operation::Edit { path, card, block } => {
                explain::edit(&Indexed { card: card.as_deref(), ..indexed }, path, block, *limit)
            }
        }
    }

    fn result_in(&self, given: &Given) -> Option<(Vec<u8>, u32)> {
        let language = self.language.language().ok()?.into_owned();
        match given {
            Given::Block { kind, .. } => Some((language, kind.0)),
            Given::Edited(_) => Some((language, self.root)),
            _ => None,
        }
    }

    fn around(&self, names: &Names) -> Option<String> {
        let language = self.language.explained().ok()?;
        show::around(&language, self.root, &self.tree, Form::Settled, names)
    }
}

#[cfg(test)]
mod tests {
    use super::*;

    #[test]
    fn paths_are_numbers_with_points() {
        let path = |text: &str| path_of(OsStr::new(text));
        assert_eq!((path(""), path("-")), (Some(vec![]), Some(vec![])));
        assert_eq!(path("1.20.0.255"), Some(vec![1, 20, 0, 255]));
        for text in ["256", "1.", ".1", "1..2", "1,2", "a", "-1"] {
            assert_eq!(path(text), None, "{text}");
        }
    }
}
