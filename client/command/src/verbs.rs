//! What each verb prints.

use crate::arguments::Call;
use crate::explanation::sentence;
use crate::given::{Figure, Given};
use crate::job::{Job, Load, Refused};
use crate::output::write_file;
use crate::table::Act;
use crate::work::work;
use crate::{job, Failure, Printed, Streams, ACCEPTED, REFUSED};
use algebra::{Node, Refusal};
use reference::explain::Fault;
use reference::listing::clause_lines;
use reference::names::Names;
use reference::notation::{clause_words, node_words};
use reference::plans::read_deep;
use std::fmt::Display;

/// Carries out a call.
pub fn carry_out(call: &Call, streams: &mut Streams) -> Result<Printed, Failure> {
    match call.verb.act {
        Act::Operation(load) => operate(load, call, streams),
        Act::Other(act) => act(call, streams),
    }
}

/// The first line of an answer, without its end.
pub fn answer_line(answer: Result<impl Display, Refusal>) -> String {
    match answer {
        Ok(figure) => format!("accepted {figure}"),
        Err(refusal) => format!("refused {}: {refusal}", refusal.number()),
    }
}

/// What is printed for an answer: its first line and others.
pub fn printed(answer: Result<impl Display, Refusal>, lines: &str) -> Printed {
    let status = if answer.is_ok() { ACCEPTED } else { REFUSED };
    let output = format!("{}\n{lines}", answer_line(answer)).into_bytes();
    Printed { output, messages: String::new(), status }
}

/// The figure of an answer's first line.
pub fn figure(answer: &Result<Given, Refused>) -> Result<Figure, Refusal> {
    answer.as_ref().map(Given::figure).map_err(|refused| refused.refusal)
}

/// What is printed for a refusal, with what it speaks of and other lines.
pub fn refused(refused: &Refused, lines: &str) -> Printed {
    printed(Err::<usize, _>(refused.refusal), &(refused.besides() + lines))
}

/// What is printed for a refusal by a sentence of its own, with what it speaks of and other lines.
pub fn refused_with(sentence: String, refused: &Refused, lines: &str) -> Printed {
    let (number, besides) = (refused.refusal.number(), refused.besides());
    let output = format!("refused {number}: {sentence}\n{besides}{lines}").into_bytes();
    Printed { output, messages: String::new(), status: REFUSED }
}

/// The fault of a job, where the sentence of its refusal depends on it.
fn sentence_fault(found: &Refused, job: &dyn Job) -> Option<Fault> {
    (found.refusal == Refusal::UnknownRoot).then(|| job.fault()).flatten()
}

/// Calls the library, and prints or writes the result.
fn operate(load: Load, call: &Call, streams: &mut Streams) -> Result<Printed, Failure> {
    let job = load(call, streams)?;
    let answer = work(job.length(), streams, || job.answer())?;
    let first = figure(&answer);
    let given = match answer {
        Ok(given) => given,
        Err(found) => {
            let fault = work(job.length(), streams, || sentence_fault(&found, job.as_ref()))?;
            let sentence = sentence(call.verb, found.refusal, fault.as_ref());
            return Ok(refused_with(sentence, &found, ""));
        }
    };
    let (figures, hexadecimal) = (given.figures(), call.options.hexadecimal);
    let besides = call.options.new_index.as_ref().or(call.options.pack.as_ref());
    if let (Some(file), Some(bytes)) = (besides, given.written_besides(hexadecimal)) {
        write_file(file, &bytes)?;
    }
    let Some(file) = &call.options.output else {
        let words = work(given.bytes().len(), streams, || words(call, job.as_ref(), &given))?;
        return Ok(printed(first, &(figures + &given.shown() + &words)));
    };
    let bytes = given.written(hexadecimal);
    if file == "-" {
        let messages = format!("{}\n{figures}", answer_line(first));
        return Ok(Printed { output: bytes, messages, status: ACCEPTED });
    }
    write_file(file, &bytes)?;
    Ok(printed(first, &figures))
}

/// A tree that is given in words, or the word of a node, where there are names.
fn words(call: &Call, job: &dyn Job, given: &Given) -> String {
    if let (Given::Node(node), false) = (given, call.names.is_empty()) {
        return format!("{}\n", node_word(*node, &call.names));
    }
    let node = || {
        let (language, kind) = job.result_in(given)?;
        read_deep(&language, kind, given.bytes())
    };
    match (!call.names.is_empty()).then(node).flatten() {
        Some(node) => format!("{}\n", node_words(&node, &call.names, 0)),
        None => String::new(),
    }
}

/// The word of a production, or that of a token's kind.
fn node_word(node: Node, names: &Names) -> String {
    // The kinds of a language are below 32.
    let kind = node.kind().0 as u8;
    match node.name() {
        Some(name) => names.production(kind, name),
        None => names.kind(kind),
    }
}

/// Prints what the listing program prints.
pub fn list(call: &Call, streams: &mut Streams) -> Result<Printed, Failure> {
    let job = job::load_reduce(call, streams)?;
    Ok(match work(0, streams, || job.answer())? {
        Ok(given) => {
            let words = (!call.names.is_empty()).then(|| clause_words(given.bytes(), &call.names));
            let lines = words.flatten().unwrap_or_else(|| clause_lines(given.bytes()));
            printed(Ok(given.figure()), &lines)
        }
        Err(Refused { refusal, .. }) => {
            let output = format!("refused {}\n", refusal.number()).into_bytes();
            Printed { output, messages: String::new(), status: REFUSED }
        }
    })
}
