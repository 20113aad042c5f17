//! A join's runs in turn, beside the run of the join.

use crate::arguments::Call;
use crate::job::{mapping_number, operand, root, run_limit, tree};
use crate::output::{digits, write_file};
use crate::page;
use crate::verbs::{answer_line, printed};
use crate::work::work;
use crate::{Failure, Printed, Streams, REFUSED};
use algebra::{Kind, Language, MappingNumber, Pack, Ran, Refusal, Translation, Tree, PACK_BYTES};
use reference::names::Names;
use reference::notation::{node_line, term_line};
use reference::plans::read_deep;
use reference::steps::{languages, mapped_kind, Step};

/// A tree and the kind of its root.
#[derive(Clone, Debug, PartialEq, Eq)]
pub struct Rooted {
    pub kind: u32,
    pub tree: Vec<u8>,
}

/// What the steps came to: the last tree, or the number of the step that refused.
pub type InTurn = Result<Rooted, (usize, Refusal)>;

/// How both routes compare.
#[derive(Clone, Copy, Debug, PartialEq, Eq)]
pub enum Verdict {
    Equal,
    RefusedAlike,
    TooDeep,
    TooLong,
    NoNumber,
    Different,
}

impl Verdict {
    /// Compares the steps in turn, so many of them, with the join.
    pub fn new(in_turn: &InTurn, joined: &Result<Rooted, Refusal>, count: usize) -> Verdict {
        match (in_turn, joined) {
            (Ok(one), Ok(other)) if one == other => Verdict::Equal,
            (Err((step, Refusal::TooDeep)), _) if *step > 0 => Verdict::TooDeep,
            (Err((step, Refusal::OutputTooShort)), _) if *step + 1 < count => Verdict::TooLong,
            (Err((_, one)), Err(other)) if one == other => Verdict::RefusedAlike,
            (Err(_), Err(Refusal::UnknownRoot)) => Verdict::NoNumber,
            _ => Verdict::Different,
        }
    }

    /// The verdict in words.
    pub fn text(self) -> &'static str {
        match self {
            Verdict::Equal => "equal: the steps in turn and the join give the same tree",
            Verdict::RefusedAlike => "equal: the steps in turn and the join are refused alike",
            Verdict::TooDeep => "not compared: a tree between is too deep to be run",
            Verdict::TooLong => "not compared: a tree between is too long for the output",
            Verdict::NoNumber => "not compared: the join has no such number",
            Verdict::Different => "DIFFERENT: the steps in turn and the join do not agree",
        }
    }
}

/// The number of the join, the length of each output, and whether trees are shown as XML.
#[derive(Clone, Copy)]
struct Format<'a> {
    number: u32,
    limit: usize,
    xml: bool,
    names: &'a Names,
}

/// Prints the steps of a pack's join on a tree.
pub fn steps(call: &Call, streams: &mut Streams) -> Result<Printed, Failure> {
    let (root, pack) = (root(call)?, operand(call, 0, PACK_BYTES, streams)?);
    let (tree, limit, xml) = (tree(call, streams)?, run_limit(call), call.options.xml);
    let number = mapping_number(call);
    let bytes = tree.len();
    let start = Rooted { kind: root, tree };
    if let Some(file) = &call.options.page {
        let page = work(bytes, streams, || page::page(call, &pack, &start, number, limit))?;
        let page = match page {
            Ok(page) => page,
            Err(printed) => return Ok(printed),
        };
        write_file(file, page.as_bytes())?;
    }
    let names = &call.names;
    work(bytes, streams, || both_routes(&pack, start, Format { number, limit, xml, names }))
}

/// What is printed for both routes.
fn both_routes(pack: &[u8], start: Rooted, format: Format) -> Printed {
    let translation = match algebra::reduce_to_vec(Pack(pack)) {
        Ok(translation) => translation,
        Err(refusal) => return printed(Err::<usize, _>(refusal), "the pack is refused\n"),
    };
    let steps = reference::steps::steps(pack, format.number).unwrap_or_default();
    let joined = run(&translation, &start, format.number, format.limit);
    let (source, target) = languages(&translation).unwrap_or_default();
    let mut lines = format.tree_line("tree", &start, source);
    let in_turn = run_in_turn(&steps, start, format, &mut lines);
    if let Ok(result) = &joined {
        lines.push_str(&format.tree_line("joined", result, target));
    }
    let verdict = Verdict::new(&in_turn, &joined, steps.len());
    let answer = joined.map(|result| result.tree.len());
    let printed = printed(answer, &format!("{lines}{}\n", closing(steps.len(), verdict)));
    match verdict {
        Verdict::Different => Printed { status: REFUSED, ..printed },
        _ => printed,
    }
}

/// What is said last, by the number of the steps.
fn closing(steps: usize, verdict: Verdict) -> &'static str {
    match steps {
        0 => "note: the second implementation cannot read the pack",
        1 => "the term is no join: there is one step",
        _ => verdict.text(),
    }
}

/// Runs the steps one after the other, and adds a line for each run and each tree.
fn run_in_turn(steps: &[Step], start: Rooted, format: Format, lines: &mut String) -> InTurn {
    let mut current = start;
    for (place, step) in steps.iter().enumerate() {
        let translation =
            algebra::reduce_to_vec(Pack(&step.pack)).map_err(|refusal| (place, refusal));
        let answer = translation.as_ref().map_err(|refused| *refused).and_then(|translation| {
            let answer = run(translation, &current, step.number, format.limit);
            answer.map_err(|refusal| (place, refusal))
        });
        let length = answer.as_ref().map(|result| result.tree.len()).map_err(|refused| refused.1);
        let (number, count, term) = (place + 1, steps.len(), format.term(step));
        let answered = answer_line(length);
        let by = if step.number == 0 { String::new() } else { format!(", number {}", step.number) };
        lines.push_str(&format!("step {number} of {count}, term {term}{by}: {answered}\n"));
        current = answer?;
        let name = if number < count { "between" } else { "in turn" };
        let languages = translation.as_deref().ok().and_then(languages).unwrap_or_default();
        lines.push_str(&format.tree_line(name, &current, languages.1));
    }
    Ok(current)
}

/// What the library gives for the run of a translation on a tree by a number.
pub fn ran(translation: &[u8], start: &Rooted, number: u32, limit: usize) -> Result<Ran, Refusal> {
    let (root, tree) = (Kind(start.kind), Tree(&start.tree));
    algebra::run_to_vec(Translation(translation), root, MappingNumber(number), tree, limit)
}

/// Runs a translation on a tree by a number.
pub fn run(
    translation: &[u8],
    start: &Rooted,
    number: u32,
    limit: usize,
) -> Result<Rooted, Refusal> {
    let tree = ran(translation, start, number, limit)?.tree;
    let kind = mapped_kind(translation, start.kind, number).ok_or(Refusal::UnknownRoot)?;
    Ok(Rooted { kind, tree })
}

impl Format<'_> {
    /// The term of a step, in words where there are names.
    fn term(self, step: &Step) -> String {
        let words = (!self.names.is_empty()).then(|| term_line(&step.pack)).flatten();
        words.unwrap_or_else(|| digits(&step.term))
    }

    /// The line that shows a tree of a language.
    fn tree_line(self, name: &str, rooted: &Rooted, language: &[u8]) -> String {
        let Rooted { kind, tree } = rooted;
        format!("{name}, kind {kind}, length {}: {}\n", tree.len(), self.shown(rooted, language))
    }

    /// A tree of a language as XML or in digits; what cannot be exported is shown in digits.
    fn shown(self, rooted: &Rooted, language: &[u8]) -> String {
        let Rooted { kind, tree } = rooted;
        let (in_language, tree_of) = (Language(language), Tree(tree));
        let export = || algebra::export_to_vec(in_language, Kind(*kind), tree_of, usize::MAX).ok();
        if let Some(text) = self.xml.then(export).flatten() {
            return String::from_utf8_lossy(&text).into_owned();
        }
        let node = || read_deep(language, *kind, tree);
        match (!self.names.is_empty()).then(node).flatten() {
            Some(node) => node_line(&node, self.names),
            None => digits(tree),
        }
    }
}

#[cfg(test)]
mod tests {
    use super::*;

    /// A tree of kind 1 with one byte.
    fn rooted(byte: u8) -> Rooted {
        Rooted { kind: 1, tree: vec![byte] }
    }

    #[test]
    fn verdicts() {
        let verdict = |in_turn: &InTurn, joined| Verdict::new(in_turn, &joined, 3);
        let deep = Err((1, Refusal::TooDeep));
        assert_eq!(verdict(&Ok(rooted(1)), Ok(rooted(1))), Verdict::Equal);
        assert_eq!(verdict(&Ok(rooted(1)), Ok(rooted(2))), Verdict::Different);
        assert_eq!(verdict(&deep, Ok(rooted(1))), Verdict::TooDeep);
        let short = Refusal::OutputTooShort;
        assert_eq!(verdict(&Err((0, short)), Ok(rooted(1))), Verdict::TooLong);
        assert_eq!(verdict(&Err((2, short)), Err(short)), Verdict::RefusedAlike);
        assert_eq!(verdict(&Err((2, short)), Ok(rooted(1))), Verdict::Different);
        let illegal = Refusal::IllegalTree;
        assert_eq!(verdict(&Err((0, illegal)), Err(illegal)), Verdict::RefusedAlike);
        assert_eq!(verdict(&Err((1, illegal)), Ok(rooted(1))), Verdict::Different);
        assert_eq!(verdict(&Err((0, illegal)), Err(Refusal::UnknownRoot)), Verdict::NoNumber);
    }
}
