//! The verb explain: where a fault is, what a number means.

use crate::arguments::Call;
use crate::explanation::{explanation, sentence};
use crate::job::{operand, sort_of};
use crate::options::Sort;
use crate::table::Verb;
use crate::verbs::{figure, printed, refused_with};
use crate::work::work;
use crate::{Failure, Printed, Streams};
use algebra::PACK_BYTES;
use std::ffi::OsStr;

/// The page that explains every refusal with an example.
const FORMATS: &str = include_str!("../../../docs/FORMATS.md");

/// Prints the answer of an operation, and where the fault is; or what a number means.
pub fn explain(call: &Call, streams: &mut Streams) -> Result<Printed, Failure> {
    if let Some(text) = number_text(&call.operands) {
        return Ok(Printed { output: text.into(), ..Printed::default() });
    }
    let call = meant(call)?;
    let Some(load) = call.verb.load() else {
        return Err(call.misuse("a verb that can be explained is needed"));
    };
    let job = load(&call, streams)?;
    let task = || (job.answer(), job.fault(), job.around(&call.names));
    let (answer, fault, around) = work(job.length(), streams, task)?;
    let first = figure(&answer);
    let mut lines = explanation(&call, first.map(|_| ()), fault.as_ref());
    lines.push_str(&around.unwrap_or_default());
    Ok(match answer {
        Ok(_) => printed(first, &lines),
        Err(found) => {
            refused_with(sentence(call.verb, found.refusal, fault.as_ref()), &found, &lines)
        }
    })
}

/// What the page of formats says of a refusal, if that is all that is asked for.
fn number_text(operands: &[std::ffi::OsString]) -> Option<String> {
    let [number] = operands else { return None };
    let number: u32 = number.to_str()?.parse().ok()?;
    let heading = format!("### {number}: ");
    let section = FORMATS.split("\n### ").find(|section| {
        let start = heading.trim_start_matches("### ");
        section.starts_with(start)
    })?;
    let section = section.split("\n## ").next()?.trim_end();
    let (sentence, rest) = section.split_once('\n')?;
    let rest = rest.trim().replace("```\n", "").replace("```", "");
    Some(format!("{sentence}\n\n{}\n", rest.trim_end()))
}

/// The call that is to be explained: that of a verb, or the one that fits the files.
fn meant(call: &Call) -> Result<Call, Failure> {
    match Verb::named(&call.operands[0]) {
        Some(verb) if verb.name == "list" => call.of(named("reduce")),
        Some(verb) if verb.load().is_some() => call.of(verb),
        Some(_) => Err(call.misuse("a verb that can be explained is needed")),
        None => guessed(call),
    }
}

/// The verb with a name that is one.
fn named(name: &str) -> &'static Verb {
    Verb::named(OsStr::new(name)).expect("a row of the table")
}

/// The call that fits the files: a check or a reduction of one, a check or a run of a tree.
fn guessed(call: &Call) -> Result<Call, Failure> {
    if !std::path::Path::new(&call.operands[0]).is_file() {
        return Err(call.misuse("a verb that can be explained is needed, a number or a file"));
    }
    let (mut input, mut output, mut unheard) = (std::io::empty(), std::io::sink(), std::io::sink());
    let mut quiet = Streams {
        input: &mut input,
        output: &mut output,
        messages: &mut unheard,
        terminal: false,
        colour: false,
    };
    let sort = call.options.sort.or(sort_of(&operand(call, 0, PACK_BYTES, &mut quiet)?));
    let name = match (sort, call.operands.len()) {
        (Some(Sort::Language), 1) => "check-language",
        (Some(Sort::Translation), 1) => "check-translation",
        (Some(Sort::Pack), 1) => "reduce",
        (Some(Sort::Language), 3) => "check-tree",
        (Some(Sort::Translation | Sort::Pack), 3) => "run",
        _ => return Err(call.misuse("it cannot be told which verb is meant")),
    };
    let mut operands = vec![name.into()];
    operands.extend(call.operands.iter().cloned());
    Call { operands, ..call.clone() }.of(named(name))
}

#[cfg(test)]
mod tests {
    use super::*;

    #[test]
    fn every_number_is_explained() {
        for number in 1..=26 {
            let text = number_text(&[number.to_string().into()]).expect("a section");
            assert!(text.starts_with(&format!("{number}: ")), "{text}");
            assert!(text.contains(&format!("refused {number}")), "{text}");
            assert!(!text.contains("```"), "{text}");
        }
        assert_eq!(number_text(&["27".into()]), None);
        assert_eq!(number_text(&["run".into()]), None);
    }
}
