//! An operation of the library with its inputs: what the library answers, and where the second
//! implementation finds the fault.

use crate::arguments::{number, Call};
use crate::given::Given;
use crate::input::read_file;
use crate::options::Sort;
use crate::{Failure, Streams};
use algebra::{
    in_output, Kind, Language, LoadTable, MappingNumber, Pack, Ran, Refusal, Translation, Tree,
    LANGUAGE_BYTES, PACK_BYTES, TABLE_BYTES, TRANSLATION_BYTES, WORKSPACE_BYTES,
};
use reference::explain::{self, Fault};
use reference::names::Names;
use reference::plans::Form;
use reference::show;
use reference::steps::{languages, mapped_kind};
use std::borrow::Cow;
use std::ffi::OsStr;

/// The length of the output of a run or a search, unless the arguments give one.
const RUN_BYTES: usize = 1 << 28;
/// Trees may have any length.
pub const TREE_BYTES: usize = usize::MAX - 1;

/// A refusal, and the files that it speaks of, or the byte of the tree, where that is to be told.
#[derive(Clone, Debug, PartialEq, Eq)]
pub struct Refused {
    pub refusal: Refusal,
    pub files: Vec<String>,
    pub position: Option<usize>,
}

impl From<Refusal> for Refused {
    fn from(refusal: Refusal) -> Refused {
        Refused { refusal, files: vec![], position: None }
    }
}

impl Refused {
    /// A refusal that speaks of files.
    pub fn of_files(refusal: Refusal, files: Vec<String>) -> Refused {
        Refused { files, ..refusal.into() }
    }

    /// The line that names the files, if there are any, and the one with the position.
    pub fn besides(&self) -> String {
        let position = self.position.map_or(String::new(), |byte| format!("position {byte}\n"));
        match &self.files[..] {
            [] => position,
            [file] => format!("file: {file}\n{position}"),
            [files @ .., last] => format!("files: {} and {last}\n{position}", files.join(", ")),
        }
    }
}

/// An operation with its inputs.
pub trait Job: Sync {
    /// The length of the tree or of its text, if there is one.
    fn length(&self) -> usize {
        0
    }

    /// What the library answers.
    fn answer(&self) -> Result<Given, Refused>;

    /// Where a second reading finds a fault, if it does.
    fn fault(&self) -> Option<Fault>;

    /// The language and the kind of the tree that an answer gives, if it gives one.
    fn result_in(&self, _: &Given) -> Option<(Vec<u8>, u32)> {
        None
    }

    /// The plan around its fault, if it is the plan that is at fault.
    fn around(&self, _: &Names) -> Option<String> {
        None
    }
}

/// Reads the inputs of an operation.
pub type Load = fn(&Call, &mut Streams) -> Result<Box<dyn Job>, Failure>;

/// What a file is by its first byte, if that tells it; no bytes are the empty language.
pub fn sort_of(file: &[u8]) -> Option<Sort> {
    match file.first() {
        None | Some(0x11 | 0x12) => Some(Sort::Language),
        Some(0x20..=0x23 | 0x28 | 0x29) => Some(Sort::Translation),
        Some(0x24) => Some(Sort::Table),
        Some(0x27) => Some(Sort::Card),
        Some(0x30..=0x32) => Some(Sort::Pack),
        Some(_) => None,
    }
}

/// Reads the file at a place among the operands, of which so many bytes matter.
pub fn operand(
    call: &Call,
    place: usize,
    limit: usize,
    streams: &mut Streams,
) -> Result<Vec<u8>, Failure> {
    read_file(&call.operands[place], call.options.format(), limit, streams)
}

/// The root, which is the second operand.
pub fn root(call: &Call) -> Result<u32, Failure> {
    kind(call, "root", &call.operands[1])
}

/// A kind by its number or its word.
pub fn kind(call: &Call, name: &str, text: &OsStr) -> Result<u32, Failure> {
    let word = text.to_str().unwrap_or_default();
    if let Some(kind) = call.names.kind_named(word) {
        return Ok(kind.into());
    }
    number(name, text).map_err(|_| match call.names.is_empty() {
        true => {
            let what = format!("the {name} {} is no kind, a number from 0 to 31", text.display());
            call.misuse(&what)
        }
        false => call.misuse(&call.names.no_kind(&text.display().to_string())),
    })
}

/// The tree, which is the third operand.
pub fn tree(call: &Call, streams: &mut Streams) -> Result<Vec<u8>, Failure> {
    operand(call, 2, TREE_BYTES, streams)
}

/// The number of the root's mapping, 0 unless the options give one.
pub fn mapping_number(call: &Call) -> u32 {
    call.options.number.unwrap_or(0)
}

/// The length of the output of a run.
pub fn run_limit(call: &Call) -> usize {
    call.options.limit.unwrap_or(RUN_BYTES)
}

/// A check of a language.
struct CheckLanguage(Vec<u8>);

/// Reads the inputs of a check of a language.
pub fn load_check_language(call: &Call, streams: &mut Streams) -> Result<Box<dyn Job>, Failure> {
    Ok(Box::new(CheckLanguage(operand(call, 0, LANGUAGE_BYTES, streams)?)))
}

impl Job for CheckLanguage {
    fn answer(&self) -> Result<Given, Refused> {
        algebra::check_language(Language(&self.0))?;
        Ok(Given::nothing())
    }

    fn fault(&self) -> Option<Fault> {
        explain::language(&self.0)
    }
}

/// A check of a translation.
struct CheckTranslation(Vec<u8>);

/// Reads the inputs of a check of a translation.
pub fn load_check_translation(call: &Call, streams: &mut Streams) -> Result<Box<dyn Job>, Failure> {
    Ok(Box::new(CheckTranslation(operand(call, 0, TRANSLATION_BYTES, streams)?)))
}

impl Job for CheckTranslation {
    fn answer(&self) -> Result<Given, Refused> {
        algebra::check_translation(Translation(&self.0))?;
        Ok(Given::nothing())
    }

    fn fault(&self) -> Option<Fault> {
        explain::translation(&self.0)
    }
}

/// A reduction.
struct Reduce {
    pack: Vec<u8>,
    limit: usize,
}

/// Reads the inputs of a reduction.
pub fn load_reduce(call: &Call, streams: &mut Streams) -> Result<Box<dyn Job>, Failure> {
    let limit = call.options.limit.unwrap_or(TRANSLATION_BYTES);
    Ok(Box::new(Reduce { pack: operand(call, 0, PACK_BYTES, streams)?, limit }))
}

impl Job for Reduce {
    fn answer(&self) -> Result<Given, Refused> {
        let room = self.limit.min(TRANSLATION_BYTES);
        Ok(Given::Bytes(in_output(room, |output| algebra::reduce(Pack(&self.pack), output))?))
    }

    fn fault(&self) -> Option<Fault> {
        explain::reduce(&self.pack, WORKSPACE_BYTES, self.limit)
    }
}

/// A load table joined onto a translation.
struct JoinTable {
    translator: Translator,
    table: Vec<u8>,
    limit: usize,
}

/// Reads the inputs of a load table's join.
pub fn load_join_table(call: &Call, streams: &mut Streams) -> Result<Box<dyn Job>, Failure> {
    let translator = Translator::load(call, streams)?;
    let table = operand(call, 1, TABLE_BYTES, streams)?;
    let limit = call.options.limit.unwrap_or(TABLE_BYTES);
    Ok(Box::new(JoinTable { translator, table, limit }))
}

impl Job for JoinTable {
    fn answer(&self) -> Result<Given, Refused> {
        let JoinTable { translator, table, limit } = self;
        let translation = translator.translation()?;
        let (translation, table) = (Translation(&translation), LoadTable(table));
        let call = |output: &mut [u8]| algebra::join_table(translation, table, output);
        Ok(Given::Bytes(in_output((*limit).min(TABLE_BYTES), call)?))
    }

    fn fault(&self) -> Option<Fault> {
        match self.translator.explained() {
            Ok(found) => explain::join_table(&found, &self.table, self.limit),
            Err(fault) => Some(fault),
        }
    }
}

/// What is run: a translation, or what a pack reduces to.
pub enum Translator {
    Translation(Vec<u8>),
    Pack(Vec<u8>),
}

impl Translator {
    /// A file of a sort.
    pub fn new(file: Vec<u8>, sort: Option<Sort>) -> Translator {
        match sort {
            Some(Sort::Pack) => Translator::Pack(file),
            _ => Translator::Translation(file),
        }
    }

    /// Reads the first operand, which is told by its first byte unless the options say what it is.
    pub fn load(call: &Call, streams: &mut Streams) -> Result<Translator, Failure> {
        let file = operand(call, 0, PACK_BYTES, streams)?;
        let sort = call.options.sort.or(sort_of(&file));
        Ok(Translator::new(file, sort))
    }

    /// Checks a translation by the library, and reduces a pack.
    pub fn checked(&self) -> Result<Cow<'_, [u8]>, Refusal> {
        if let Translator::Translation(translation) = self {
            algebra::check_translation(Translation(translation))?;
        }
        self.translation()
    }

    /// The translation, for which the library reduces a pack.
    pub fn translation(&self) -> Result<Cow<'_, [u8]>, Refusal> {
        match self {
            Translator::Translation(translation) => Ok(Cow::Borrowed(translation)),
            Translator::Pack(pack) => algebra::reduce_to_vec(Pack(pack)).map(Cow::Owned),
        }
    }

    /// The translation, for which the second implementation reduces a pack, or the pack's fault.
    pub fn explained(&self) -> Result<Cow<'_, [u8]>, Fault> {
        let pack = match self {
            Translator::Translation(translation) => return Ok(Cow::Borrowed(translation)),
            Translator::Pack(pack) => pack,
        };
        if let Some(fault) = explain::reduce(pack, WORKSPACE_BYTES, TRANSLATION_BYTES) {
            return Err(fault);
        }
        let mut output = vec![0; TRANSLATION_BYTES];
        let outcome = reference::reduce(pack, &mut vec![0; WORKSPACE_BYTES], &mut output);
        output.truncate(outcome.length() as usize);
        Ok(Cow::Owned(output))
    }
}

/// A run.
struct Run {
    translator: Translator,
    root: u32,
    /// The number of the root's mapping.
    number: u32,
    tree: Vec<u8>,
    limit: usize,
}

/// Reads the inputs of a run; numbers are looked at before any file.
pub fn load_run(call: &Call, streams: &mut Streams) -> Result<Box<dyn Job>, Failure> {
    let (root, translator) = (root(call)?, Translator::load(call, streams)?);
    let (number, tree) = (mapping_number(call), tree(call, streams)?);
    Ok(Box::new(Run { translator, root, number, tree, limit: run_limit(call) }))
}

impl Run {
    /// The tree that the run gives, and its cost.
    fn ran(&self) -> Result<Ran, Refusal> {
        let translation = self.translator.translation()?;
        let (root, number) = (Kind(self.root), MappingNumber(self.number));
        let (translation, tree) = (Translation(&translation), Tree(&self.tree));
        algebra::run_to_vec(translation, root, number, tree, self.limit)
    }
}

impl Job for Run {
    fn length(&self) -> usize {
        self.tree.len()
    }

    fn answer(&self) -> Result<Given, Refused> {
        Ok(Given::Ran(self.ran()?))
    }

    fn fault(&self) -> Option<Fault> {
        let Run { root, number, tree, limit, .. } = self;
        match self.translator.explained() {
            Ok(found) => explain::run(&found, *root, *number, tree, *limit),
            Err(fault) => Some(fault),
        }
    }

    fn result_in(&self, _: &Given) -> Option<(Vec<u8>, u32)> {
        let translation = self.translator.translation().ok()?;
        let kind = mapped_kind(&translation, self.root, self.number)?;
        Some((languages(&translation)?.1.to_vec(), kind))
    }

    fn around(&self, names: &Names) -> Option<String> {
        let translation = self.translator.explained().ok()?;
        show::around(languages(&translation)?.0, self.root, &self.tree, Form::Settled, names)
    }
}
