//! A page that shows the runs of a join in turn beside the run of the join: it stands by itself, and
//! can be printed.

use crate::arguments::Call;
use crate::output::digits;
use crate::picture::{escaped, Picture};
use crate::steps::{ran, run, InTurn, Rooted, Verdict};
use crate::verbs::{answer_line, printed};
use crate::Printed;
use algebra::Pack;
use reference::names::Names;
use reference::notation::{node_words, term_line};
use reference::plans::read_deep;
use reference::steps::{applied, languages, steps, Applied, Step};
use std::fmt::Write;

/// So many clauses that a run applies are listed.
const LISTED: usize = 200;

/// What stands above the page's contents.
const HEAD: &str = "<!DOCTYPE html>
<html lang=\"en\">
<head>
<meta charset=\"utf-8\"/>
<title>Steps of a join</title>
<style>
body { font-family: sans-serif; max-width: 60em; margin: 2em auto; padding: 0 1em; color: #222; }
pre, code { font-family: monospace; overflow-wrap: anywhere; white-space: pre-wrap; }
section { break-inside: avoid; margin-bottom: 2em; }
svg { max-width: 100%; height: auto; }
table { border-collapse: collapse; }
td, th { border: 1px solid #999; padding: 0.2em 0.6em; text-align: left; }
@media print { body { margin: 0; } }
</style>
</head>
<body>
";

/// The law that makes both routes equal.
const LAW: &str = "The law of runs: the run of a join equals the two runs in turn, the second \
     operand's first, in number, length and bytes, where the first of them is accepted and its \
     tree is not too deep to be handed to the other.";

/// A page in the making.
struct Page<'a> {
    names: &'a Names,
    limit: usize,
    text: String,
}

/// The page for a pack, a tree and a number, or what is printed for a pack that is refused.
pub fn page(
    call: &Call,
    pack: &[u8],
    start: &Rooted,
    number: u32,
    limit: usize,
) -> Result<String, Printed> {
    let translation = algebra::reduce_to_vec(Pack(pack))
        .map_err(|refusal| printed(Err::<usize, _>(refusal), ""))?;
    let steps = steps(pack, number).unwrap_or_default();
    let mut page = Page { names: &call.names, limit, text: HEAD.to_string() };
    page.heading(call, pack);
    let (source, target) = languages(&translation).unwrap_or_default();
    page.tree("The tree", start, source);
    let in_turn = page.in_turn(&steps, start);
    let joined = run(&translation, start, number, limit);
    let term = term_line(pack).unwrap_or_default();
    page.run("The join in one run", &term, &translation, start, number);
    if let Ok(result) = &joined {
        page.tree("What it gives", result, target);
    }
    page.text.push_str("</section>\n");
    page.law(Verdict::new(&in_turn, &joined, steps.len()), steps.len());
    page.text.push_str("</body>\n</html>\n");
    Ok(page.text)
}

impl Page<'_> {
    /// Adds the heading and the term in words.
    fn heading(&mut self, call: &Call, pack: &[u8]) {
        let name = |place: usize| escaped(&call.operands[place].display().to_string());
        let term = term_line(pack).unwrap_or_default();
        let _ = write!(
            self.text,
            "<h1>Steps of a join</h1>\n<p>Pack <code>{}</code>, root {}, tree <code>{}</code></p>\n\
             <section>\n<h2>The term</h2>\n<pre>{}</pre>\n</section>\n",
            name(0),
            name(1),
            name(2),
            escaped(&term)
        );
    }

    /// Adds a tree: drawn, in words and in bytes.
    fn tree(&mut self, title: &str, rooted: &Rooted, language: &[u8]) {
        let Rooted { kind, tree } = rooted;
        let kind_name = self.names.kind(*kind as u8);
        let _ = writeln!(
            self.text,
            "<section>\n<h3>{title}: kind {}, {} bytes</h3>",
            escaped(&kind_name),
            tree.len()
        );
        if let Some(node) = read_deep(language, *kind, tree) {
            let picture = Picture::new(&node, self.names, None);
            self.text.push_str(&picture.svg(title));
            let words = escaped(&node_words(&node, self.names, 0));
            let _ = writeln!(self.text, "<pre>{words}</pre>");
        }
        let _ = writeln!(self.text, "<pre>{}</pre>\n</section>", digits(tree));
    }

    /// Adds the runs of the steps in turn.
    fn in_turn(&mut self, steps: &[Step], start: &Rooted) -> InTurn {
        let mut current = start.clone();
        for (place, step) in steps.iter().enumerate() {
            let title = format!("Step {} of {}", place + 1, steps.len());
            let term = term_line(&step.pack).unwrap_or_default();
            let refused = |refusal| (place, refusal);
            let translation = algebra::reduce_to_vec(Pack(&step.pack)).map_err(refused)?;
            self.run(&title, &term, &translation, &current, step.number);
            let next = run(&translation, &current, step.number, self.limit);
            self.text.push_str("</section>\n");
            current = next.map_err(refused)?;
            let target = languages(&translation).unwrap_or_default().1;
            self.tree(&format!("After step {}", place + 1), &current, target);
        }
        Ok(current)
    }

    /// Adds a run: its answer, and which clauses were applied where. The section stays open.
    fn run(&mut self, title: &str, term: &str, translation: &[u8], start: &Rooted, number: u32) {
        let ran = ran(translation, start, number, self.limit);
        let answer = answer_line(ran.as_ref().map(|ran| ran.tree.len()).map_err(|found| *found));
        let _ = writeln!(
            self.text,
            "<section>\n<h2>{title}</h2>\n<pre>{}</pre>\n<p>{}</p>",
            escaped(term),
            escaped(&answer)
        );
        let Ok(ran) = ran else { return };
        let _ = writeln!(self.text, "<p>Cost {}: the clauses that were applied.</p>", ran.cost);
        let list = applied(translation, start.kind, number, &start.tree, LISTED);
        self.clauses(&list.unwrap_or_default());
        if ran.cost as usize > LISTED {
            let _ = writeln!(self.text, "<p>and {} more</p>", ran.cost as usize - LISTED);
        }
    }

    /// Adds a table of the clauses that a run applied.
    fn clauses(&mut self, list: &[Applied]) {
        self.text.push_str("<table><tr><th></th><th>clause</th><th>at</th></tr>\n");
        for (place, one) in list.iter().enumerate() {
            let path: Vec<String> = one.path.iter().map(usize::to_string).collect();
            let at = if path.is_empty() { "the root".to_string() } else { path.join(".") };
            let by = if one.number == 0 { String::new() } else { format!(".{}", one.number) };
            let clause = self.names.production(one.kind, one.name);
            let _ = writeln!(
                self.text,
                "<tr><td>{}</td><td>{}{by}</td><td>{at}</td></tr>",
                place + 1,
                escaped(&clause)
            );
        }
        self.text.push_str("</table>\n");
    }

    /// Adds the law, and whether its conditions hold here.
    fn law(&mut self, verdict: Verdict, steps: usize) {
        let here = match (steps, verdict) {
            (0 | 1, _) => "The term is no join, so that the law says nothing here.",
            (_, Verdict::Equal) => "Its conditions hold here, and both routes give the same bytes.",
            (_, Verdict::RefusedAlike) => "The tree is refused on both routes alike.",
            (_, Verdict::TooDeep | Verdict::TooLong) => {
                "Its conditions do not hold here: a tree between is too deep or too long to be run."
            }
            (_, Verdict::NoNumber) => "The join has no such number, so that nothing is compared.",
            (_, Verdict::Different) => "BOTH ROUTES DIFFER.",
        };
        let _ = write!(
            self.text,
            "<section>\n<h2>The rule</h2>\n<p>{LAW}</p>\n<p><strong>{here}</strong></p>\n\
             <p>{}</p>\n</section>\n",
            escaped(verdict.text())
        );
    }
}
