//! Files and plans that are shown, drawn, written as text, and read back from it.

use crate::arguments::Call;
use crate::explanation::{fault_lines, refusal};
use crate::input::read_file;
use crate::job::{operand, root, sort_of, tree};
use crate::language_file::LanguageFile;
use crate::options::{Format, Sort};
use crate::output::{hexadecimal_lines, write_file};
use crate::tree_job::CARD_BYTES;
use crate::verbs::{answer_line, printed, refused};
use crate::work::work;
use crate::{Failure, Printed, Streams, ACCEPTED, REFUSED};
use algebra::{Language, Pack, Refusal, Translation, PACK_BYTES};
use reference::explain::{self, Fault};
use reference::notation::{assemble as assembled, dump as dumped, seen, Source};
use reference::plans::Form;
use reference::show;

/// No text in the notation is longer.
const TEXT_BYTES: usize = 1 << 28;

/// A file, or a plan with its language, that was read.
pub enum Loaded {
    File(Sort, Vec<u8>),
    Plan(Plan),
}

/// A plan with its language.
pub struct Plan {
    language: LanguageFile,
    pub root: u32,
    pub plan: Vec<u8>,
    sort: Sort,
    card: Option<Vec<u8>>,
}

impl Plan {
    /// Reads language, root and plan, and a card if one is named.
    pub fn load(call: &Call, streams: &mut Streams) -> Result<Plan, Failure> {
        let root = root(call)?;
        let language = LanguageFile::load_at(call, 0, None, streams)?;
        let plan = tree(call, streams)?;
        let card = match &call.options.card {
            Some(name) => Some(read_file(name, call.options.format(), CARD_BYTES, streams)?),
            None => None,
        };
        let sort = call.options.sort.unwrap_or(Sort::Tree);
        if (sort == Sort::Masked) != card.is_some() {
            return Err(call.misuse("a masked plan and its card go together"));
        }
        Ok(Plan { language, root, plan, sort, card })
    }

    /// How the plan is written.
    pub fn form(&self) -> Result<Form, Fault> {
        Ok(match (self.sort, &self.card) {
            (Sort::Loose, _) => Form::Loose,
            (_, Some(card)) => Form::Masked(seen(card)?),
            _ => Form::Settled,
        })
    }

    /// Does something with the language and the form of the plan.
    pub fn with<T>(&self, act: impl FnOnce(&[u8], Form) -> Result<T, Fault>) -> Result<T, Fault> {
        let language = self.language.explained()?;
        act(&language, self.form()?)
    }
}

impl Loaded {
    /// Reads one file, or a language, a root and a plan.
    pub fn load(call: &Call, streams: &mut Streams) -> Result<Loaded, Failure> {
        if call.operands.len() > 1 {
            return Plan::load(call, streams).map(Loaded::Plan);
        }
        let file = operand(call, 0, PACK_BYTES.max(CARD_BYTES), streams)?;
        match call.options.sort.or(sort_of(&file)) {
            Some(Sort::Tree | Sort::Loose | Sort::Masked) => {
                Err(call.misuse("a plan needs its language and root: LANGUAGE ROOT PLAN"))
            }
            Some(sort) => Ok(Loaded::File(sort, file)),
            None => {
                let name = call.operands[0].display();
                let what = format!("{name}: the first byte does not tell what the file is");
                Err(call.misuse(&what))
            }
        }
    }

    /// Does something with what was read.
    fn with<T>(&self, act: impl FnOnce(Source) -> Result<T, Fault>) -> Result<T, Fault> {
        match self {
            Loaded::Plan(plan) => plan.with(|language, form| {
                act(Source::Plan { language, root: plan.root, plan: &plan.plan, form })
            }),
            Loaded::File(sort, file) => act(match sort {
                Sort::Translation => Source::Translation(file),
                Sort::Pack => Source::Pack(file),
                Sort::Table => Source::Table(file),
                Sort::Card => Source::Card(file),
                Sort::Index => Source::Index(file),
                _ => Source::Language(file),
            }),
        }
    }

    /// How many bytes a plan has.
    fn length(&self) -> usize {
        match self {
            Loaded::Plan(plan) => plan.plan.len(),
            Loaded::File(..) => 0,
        }
    }

    /// What the library answers to a file, where it has an operation for the file alone, and where
    /// the second implementation finds the fault.
    fn refused(&self) -> Option<(Refusal, Option<Fault>)> {
        let Loaded::File(sort, file) = self else { return None };
        let (answer, fault) = match sort {
            Sort::Language => (algebra::check_language(Language(file)), explain::language(file)),
            Sort::Translation => {
                (algebra::check_translation(Translation(file)), explain::translation(file))
            }
            Sort::Pack => {
                let (workspace, output) = (algebra::WORKSPACE_BYTES, algebra::TRANSLATION_BYTES);
                let answer = algebra::reduce_to_vec(Pack(file)).map(|_| ());
                (answer, explain::reduce(file, workspace, output))
            }
            _ => return None,
        };
        answer.err().map(|refusal| (refusal, fault))
    }
}

/// What is printed for a fault of what cannot be shown.
pub fn faulty(call: &Call, fault: &Fault) -> Printed {
    printed(Err::<usize, _>(refusal(fault)), &fault_lines(call, fault))
}

/// Prints a file or a plan in words, and last the refusal if there is one.
pub fn show(call: &Call, streams: &mut Streams) -> Result<Printed, Failure> {
    let loaded = Loaded::load(call, streams)?;
    let task = || (loaded.with(|source| show::show(source, &call.names)), loaded.refused());
    let (text, answer) = work(loaded.length(), streams, task)?;
    let text = match text {
        Ok(text) => text,
        Err(fault) => return Ok(faulty(call, &answer.and_then(|found| found.1).unwrap_or(fault))),
    };
    let Some((refusal, fault)) = answer else {
        return Ok(Printed { output: text.into(), ..Printed::default() });
    };
    let lines = fault.map_or(String::new(), |fault| fault_lines(call, &fault));
    let last = refused(&refusal.into(), &lines);
    let output = [text.into_bytes(), last.output].concat();
    Ok(Printed { output, status: REFUSED, ..Printed::default() })
}

/// Prints or writes a file or a plan in the notation.
pub fn dump(call: &Call, streams: &mut Streams) -> Result<Printed, Failure> {
    let loaded = Loaded::load(call, streams)?;
    let task = || loaded.with(|source| dumped(source, &call.names));
    let text = match work(loaded.length(), streams, task)? {
        Ok(text) => text,
        Err(fault) => {
            let hinted = work(0, streams, || loaded.refused())?.and_then(|found| found.1);
            return Ok(faulty(call, &hinted.unwrap_or(fault)));
        }
    };
    match &call.options.output {
        Some(file) if file != "-" => {
            write_file(file, text.as_bytes())?;
            Ok(printed(Ok(text.len()), ""))
        }
        _ => Ok(Printed { output: text.into(), ..Printed::default() }),
    }
}

/// Prints or writes the file that a text in the notation stands for.
pub fn assemble(call: &Call, streams: &mut Streams) -> Result<Printed, Failure> {
    let name = &call.operands[0];
    let bytes = read_file(name, Format::Bytes, TEXT_BYTES, streams)?;
    let shown = crate::input::file_name(name);
    let text = String::from_utf8(bytes).map_err(|_| Failure::of(&shown, "it is no text"))?;
    let file = work(text.len(), streams, || assembled(&text, &call.names))?;
    let file = file.map_err(|misread| Failure::of(&shown, misread))?;
    let line = format!("{}\n", answer_line(Ok(file.len())));
    match &call.options.output {
        None => Ok(printed(Ok(file.len()), &hexadecimal_lines(&file))),
        Some(output) => {
            let written = match call.options.hexadecimal {
                true => hexadecimal_lines(&file).into_bytes(),
                false => file,
            };
            if output == "-" {
                return Ok(Printed { output: written, messages: line, status: ACCEPTED });
            }
            write_file(output, &written)?;
            Ok(Printed { output: line.into(), ..Printed::default() })
        }
    }
}
