//! An operation on a tree, or on its text, in a language.

use crate::arguments::Call;
use crate::given::Given;
use crate::input::read_file;
use crate::job::{operand, root, run_limit, tree, Job, Refused, TREE_BYTES};
use crate::language_file::LanguageFile;
use crate::options::Format;
use crate::tidy::{tidied, Tidied};
use crate::{Failure, Streams};
use algebra::{
    in_output, Card, Kind, Language, LoadTable, LoosePlan, Refusal, Tree, TreeFault, Xml,
    TABLE_BYTES,
};
use reference::explain::{self, Fault};
use reference::names::Names;
use reference::plans::Form;
use reference::show;

/// The place of a load table among the operands of a score, and of a card among those of a mask.
const TABLE_PLACE: usize = 3;
const CARD_PLACE: usize = 3;
/// A longer card has bytes behind its field, whatever they are.
pub const CARD_BYTES: usize = 3 + u16::MAX as usize;

/// The inputs of one operation.
pub struct TreeJob {
    operation: Operation,
    language: LanguageFile,
    root: u32,
    /// The tree, or for an import its text.
    tree: Vec<u8>,
}

/// What is done, with what else it takes.
enum Operation {
    Check,
    Locate,
    Score { table: Vec<u8> },
    ScoreLoose { table: Vec<u8> },
    Export { limit: usize },
    Import { limit: usize },
    Mask { card: Vec<u8>, limit: Option<usize> },
}

/// The text, which is the third operand and never hexadecimal. What is dropped from it is said.
fn text(call: &Call, streams: &mut Streams) -> Result<Vec<u8>, Failure> {
    let text = read_file(&call.operands[2], Format::Bytes, TREE_BYTES, streams)?;
    if !call.options.tidy {
        return Ok(text);
    }
    let Tidied { text, dropped } = tidied(&text);
    if !dropped.is_empty() {
        // A message that cannot be written has no other place to go.
        let _ = writeln!(streams.messages, "dropped: {}", dropped.join(", "));
    }
    Ok(text)
}

impl TreeJob {
    /// Reads language, root and tree, and then what else the operation takes; numbers are looked at
    /// before any file.
    fn load(
        call: &Call,
        streams: &mut Streams,
        read: impl FnOnce(&Call, &mut Streams) -> Result<Operation, Failure>,
    ) -> Result<Box<dyn Job>, Failure> {
        let (root, language) = (root(call)?, LanguageFile::load(call, streams)?);
        let tree = tree(call, streams)?;
        let operation = read(call, streams)?;
        Ok(Box::new(TreeJob { operation, language, root, tree }))
    }

    /// Reads the inputs of a check.
    pub fn load_check(call: &Call, streams: &mut Streams) -> Result<Box<dyn Job>, Failure> {
        TreeJob::load(call, streams, |_, _| Ok(Operation::Check))
    }

    /// Reads the inputs of a check that tells the position of a fault.
    pub fn load_locate(call: &Call, streams: &mut Streams) -> Result<Box<dyn Job>, Failure> {
        TreeJob::load(call, streams, |_, _| Ok(Operation::Locate))
    }

    /// Reads the inputs of a score.
    pub fn load_score(call: &Call, streams: &mut Streams) -> Result<Box<dyn Job>, Failure> {
        TreeJob::load(call, streams, |call, streams| {
            Ok(Operation::Score { table: operand(call, TABLE_PLACE, TABLE_BYTES, streams)? })
        })
    }

    /// Reads the inputs of the score of a loose plan.
    pub fn load_score_loose(call: &Call, streams: &mut Streams) -> Result<Box<dyn Job>, Failure> {
        TreeJob::load(call, streams, |call, streams| {
            Ok(Operation::ScoreLoose { table: operand(call, TABLE_PLACE, TABLE_BYTES, streams)? })
        })
    }

    /// Reads the inputs of an export.
    pub fn load_export(call: &Call, streams: &mut Streams) -> Result<Box<dyn Job>, Failure> {
        TreeJob::load(call, streams, |call, _| Ok(Operation::Export { limit: run_limit(call) }))
    }

    /// Reads the inputs of an import.
    pub fn load_import(call: &Call, streams: &mut Streams) -> Result<Box<dyn Job>, Failure> {
        let (root, language) = (root(call)?, LanguageFile::load(call, streams)?);
        let (tree, limit) = (text(call, streams)?, run_limit(call));
        Ok(Box::new(TreeJob { operation: Operation::Import { limit }, language, root, tree }))
    }

    /// Reads the inputs of a mask.
    pub fn load_mask(call: &Call, streams: &mut Streams) -> Result<Box<dyn Job>, Failure> {
        TreeJob::load(call, streams, |call, streams| {
            let card = operand(call, CARD_PLACE, CARD_BYTES, streams)?;
            Ok(Operation::Mask { card, limit: call.options.limit })
        })
    }
}

/// A refusal with the position of the fault.
fn located(fault: TreeFault) -> Refused {
    Refused { position: fault.position(), ..fault.refusal().into() }
}

impl Job for TreeJob {
    fn length(&self) -> usize {
        self.tree.len()
    }

    fn answer(&self) -> Result<Given, Refused> {
        let bytes = &self.tree[..];
        let (language, root, tree) = (self.language.language()?, Kind(self.root), Tree(bytes));
        let language = Language(&language);
        Ok(match &self.operation {
            Operation::Check => {
                algebra::check_tree(language, root, tree).map_err(Refusal::from)?;
                Given::nothing()
            }
            Operation::Locate => {
                algebra::locate(language, root, tree)
                    .map_or(Ok(()), |fault| Err(located(fault)))?;
                Given::nothing()
            }
            Operation::Score { table } => {
                Given::Score(algebra::score(language, root, tree, LoadTable(table))?)
            }
            Operation::ScoreLoose { table } => {
                let (plan, table) = (LoosePlan(bytes), LoadTable(table));
                Given::Scores(algebra::score_loose(language, root, plan, table)?)
            }
            Operation::Export { limit } => {
                Given::Text(algebra::export_to_vec(language, root, tree, *limit)?)
            }
            Operation::Import { limit } => {
                Given::Bytes(algebra::import_to_vec(language, root, Xml(bytes), *limit)?)
            }
            Operation::Mask { card, limit } => {
                let (card, room) = (Card(card), limit.unwrap_or(bytes.len()).min(bytes.len()));
                let call = |output: &mut [u8]| algebra::mask(language, root, card, tree, output);
                Given::Bytes(in_output(room, call)?)
            }
        })
    }

    fn fault(&self) -> Option<Fault> {
        let TreeJob { operation, root, tree, .. } = self;
        let language = match self.language.explained() {
            Ok(language) => language,
            Err(fault) => return Some(fault),
        };
        let (language, root) = (&language[..], *root);
        match operation {
            Operation::Check | Operation::Locate => explain::tree(language, root, tree),
            Operation::Score { table } => explain::score(language, root, tree, table),
            Operation::ScoreLoose { table } => explain::score_loose(language, root, tree, table),
            Operation::Export { limit } => explain::export(language, root, tree, *limit),
            Operation::Import { limit } => explain::import(language, root, tree, *limit),
            Operation::Mask { card, limit } => {
                explain::mask(language, root, card, tree, limit.unwrap_or(tree.len()))
            }
        }
    }

    fn result_in(&self, _: &Given) -> Option<(Vec<u8>, u32)> {
        let imports = matches!(self.operation, Operation::Import { .. });
        let language = self.language.language().ok().filter(|_| imports)?;
        Some((language.into_owned(), self.root))
    }

    fn around(&self, names: &Names) -> Option<String> {
        let form = match self.operation {
            Operation::Import { .. } => return None,
            Operation::ScoreLoose { .. } => Form::Loose,
            _ => Form::Settled,
        };
        let language = self.language.explained().ok()?;
        show::around(&language, self.root, &self.tree, form, names)
    }
}
