//! Compares the library with the reference on seeded random cases, and tests the laws of runs, of
//! sums, and of joins and identities on the library alone.
//!
//! Usage: differential OPERATION... [--cases N] [--seed N] [--first N] [--trace]

#![forbid(unsafe_code)]

#[path = "differential/laws.rs"]
mod laws;

use reference::call::{Answer, Buffers, Call, Input};
use reference::generate::{
    block_case, botched_case, edit_case, export_case, has_numbers, import_case, index_case,
    join_table_case, language_file, loose_case, mask_case, reduce_case, run_case, score_case,
    search_case, translation_file, tree_case, Random, LONG_TREE,
};
use reference::laws::Broken;
use reference::promises::answers;
use std::fmt::Write as _;
use std::process::ExitCode;
use std::thread::{available_parallelism, scope};
use std::time::Instant;

/// Answers are counted by number, and so is what the laws say.
const NUMBERS: usize = 27;

/// What one side answered, and the buffers at the end.
#[derive(PartialEq, Eq)]
struct Side {
    answer: Answer,
    buffers: Buffers,
}

/// A call as it was compared.
struct Comparison<'a> {
    call: &'a Call,
    library: Side,
    reference: Side,
}

/// What one case showed: the numbers that it counts for, and the lines of a difference.
struct Finding {
    reached: Vec<usize>,
    /// Whether the case has a long tree.
    long: bool,
    /// Whether it has a translation or a pack with other numbers than 0.
    numbered: bool,
    difference: Option<Vec<String>>,
}

/// An operation that can be compared, or laws that can be tried.
struct Operation {
    name: &'static str,
    tried: Tried,
}

/// What is tried on one case.
enum Tried {
    /// Both sides answer a call alike.
    Call(fn(&mut Random) -> Call),
    /// Laws hold of the library; what they say has names by number.
    Laws(fn(&mut Random) -> Finding, &'static [&'static str]),
}

/// The operations that can be compared.
const OPERATIONS: &[Operation] = &[
    Operation {
        name: "check_language",
        tried: Tried::Call(|random| Call::CheckLanguage(language_file(random))),
    },
    Operation {
        name: "check_tree",
        tried: Tried::Call(|random| Call::CheckTree(tree_case(random))),
    },
    Operation {
        name: "check_translation",
        tried: Tried::Call(|random| Call::CheckTranslation(translation_file(random))),
    },
    Operation { name: "run", tried: Tried::Call(|random| Call::Run(run_case(random))) },
    Operation { name: "reduce", tried: Tried::Call(|random| Call::Reduce(reduce_case(random))) },
    Operation { name: "score", tried: Tried::Call(|random| Call::Score(score_case(random))) },
    Operation {
        name: "score_loose",
        tried: Tried::Call(|random| Call::ScoreLoose(loose_case(random))),
    },
    Operation {
        name: "join_table",
        tried: Tried::Call(|random| Call::JoinTable(join_table_case(random))),
    },
    Operation { name: "export", tried: Tried::Call(|random| Call::Export(export_case(random))) },
    Operation { name: "import", tried: Tried::Call(|random| Call::Import(import_case(random))) },
    Operation { name: "block", tried: Tried::Call(|random| Call::Block(block_case(random))) },
    Operation { name: "node", tried: Tried::Call(|random| Call::Node(block_case(random))) },
    Operation { name: "locate", tried: Tried::Call(|random| Call::Locate(botched_case(random))) },
    Operation { name: "index", tried: Tried::Call(|random| Call::Index(index_case(random))) },
    Operation { name: "edit", tried: Tried::Call(|random| Call::Edit(edit_case(random))) },
    Operation { name: "mask", tried: Tried::Call(|random| Call::Mask(mask_case(random))) },
    Operation { name: "search", tried: Tried::Call(|random| Call::Search(search_case(random))) },
    Operation { name: "laws", tried: Tried::Laws(laws::find, &reference::laws::SAID) },
    Operation {
        name: "edit_laws",
        tried: Tried::Laws(laws::find_edits, &reference::laws::edits::SAID),
    },
    Operation {
        name: "search_laws",
        tried: Tried::Laws(laws::find_searches, &reference::laws::search::SAID),
    },
    Operation {
        name: "mask_laws",
        tried: Tried::Laws(laws::find_masks, &reference::laws::masks::SAID),
    },
    Operation {
        name: "loose_laws",
        tried: Tried::Laws(laws::find_loose, &reference::laws::loose::SAID),
    },
];

impl Operation {
    /// The numbers that are possible, all of which must be reached.
    fn possible(&self) -> Vec<usize> {
        match self.tried {
            Tried::Call(_) => answers(self.name).iter().map(|&number| number as usize).collect(),
            Tried::Laws(_, said) => (0..said.len()).collect(),
        }
    }

    /// What a number stands for.
    fn label(&self, number: usize) -> String {
        match self.tried {
            Tried::Call(_) => format!("answer {number:2}"),
            Tried::Laws(_, said) => said[number].to_string(),
        }
    }

    /// Tries one case.
    fn find(&self, random: &mut Random) -> Finding {
        match self.tried {
            Tried::Laws(find, _) => find(random),
            Tried::Call(case) => {
                let call = case(random);
                compare(&call, random).finding()
            }
        }
    }
}

/// Makes a call by both sides, with buffers that are alike.
fn compare<'a>(call: &'a Call, random: &mut Random) -> Comparison<'a> {
    let buffers = call.buffers().marked(random);
    let by = |make: fn(&Call, &mut Buffers) -> Answer| {
        let mut buffers = buffers.clone();
        Side { answer: make(call, &mut buffers), buffers }
    };
    Comparison { call, library: by(Call::by_library), reference: by(Call::by_reference) }
}

impl Finding {
    /// What laws said of a case, by number, or how one was broken.
    fn of_laws(said: Result<Vec<usize>, Broken>) -> Finding {
        match said {
            Ok(reached) => Finding { reached, long: false, numbered: false, difference: None },
            Err(broken) => {
                let inputs = broken.inputs.into_iter();
                let inputs = inputs.map(|(name, bytes)| line(name, Input::Bytes(&bytes)));
                let lines = [format!("  {}", broken.what)].into_iter().chain(inputs);
                let difference = Some(lines.collect());
                Finding { reached: vec![], long: false, numbered: false, difference }
            }
        }
    }
}

/// What the arguments ask for.
struct Request {
    operations: Vec<&'static Operation>,
    cases: u64,
    seed: u64,
    /// The number of the first case.
    first: u64,
    /// Whether each case is announced before it is compared.
    trace: bool,
}

/// Reads the arguments, or says what is wrong with them.
fn request(arguments: impl Iterator<Item = String>) -> Result<Request, String> {
    let mut request =
        Request { operations: vec![], cases: 200_000, seed: 1, first: 0, trace: false };
    let mut arguments = arguments;
    while let Some(argument) = arguments.next() {
        match argument.as_str() {
            "--cases" => request.cases = number(arguments.next())?,
            "--seed" => request.seed = number(arguments.next())?,
            "--first" => request.first = number(arguments.next())?,
            "--trace" => request.trace = true,
            name => request.operations.push(operation(name)?),
        }
    }
    if request.operations.is_empty() {
        return Err("name one or more operations".to_string());
    }
    Ok(request)
}

/// The number that follows an option.
fn number(argument: Option<String>) -> Result<u64, String> {
    let argument = argument.ok_or("a number must follow the option")?;
    argument.parse().map_err(|_| format!("{argument} is not a number"))
}

/// The operation with that name.
fn operation(name: &str) -> Result<&'static Operation, String> {
    let found = OPERATIONS.iter().find(|operation| operation.name == name);
    found.ok_or_else(|| format!("{name} is not an operation"))
}

/// The seed of one case, from the seed of all, the operation and the case's number.
fn case_seed(seed: u64, operation: &Operation, case: u64) -> u64 {
    let name = operation.name.bytes();
    let name = name.fold(0, |sum: u64, byte| sum.wrapping_mul(257).wrapping_add(u64::from(byte)));
    Random::new(seed ^ name.rotate_left(32))
        .bits()
        .wrapping_add(case.wrapping_mul(0xD134_2543_DE82_EF95))
}

/// Bytes as two hexadecimal digits each.
fn hexadecimal(bytes: &[u8]) -> String {
    let mut text = String::with_capacity(2 * bytes.len());
    for byte in bytes {
        write!(text, "{byte:02X}").expect("writing to a string does not fail");
    }
    text
}

/// An output in hexadecimal digits: all of it, or of a long one 64 bytes from a place on.
fn output_shown(output: &[u8], place: usize) -> String {
    if output.len() <= 5000 {
        return hexadecimal(output);
    }
    let end = output.len().min(place + 64);
    format!("bytes {place} to {end}: {}", hexadecimal(&output[place..end]))
}

/// Where two buffers differ first.
fn first_difference(left: &[u8], right: &[u8]) -> Option<usize> {
    (0..left.len()).find(|&place| left[place] != right[place])
}

/// The line that shows an input.
fn line(name: &str, input: Input) -> String {
    match input {
        Input::Bytes(bytes) => format!("  {name} ({} bytes): {}", bytes.len(), hexadecimal(bytes)),
        Input::Number(number) => format!("  {name}: {number}"),
    }
}

impl Comparison<'_> {
    /// The answer that was reached, and the difference if there is one.
    fn finding(&self) -> Finding {
        let differs = self.library != self.reference || self.runs_elsewhere();
        let difference = differs.then(|| self.lines());
        let reached = vec![self.reference.answer.number as usize];
        Finding { reached, long: self.has_long_tree(), numbered: self.is_numbered(), difference }
    }

    /// Whether one of the inputs with these names is so.
    fn has(&self, names: &[&str], is: impl Fn(&[u8]) -> bool) -> bool {
        let inputs = self.call.inputs().into_iter();
        let mut named = inputs.filter(|(name, _)| names.contains(name));
        named.any(|(_, input)| matches!(input, Input::Bytes(bytes) if is(bytes)))
    }

    /// Whether one of the inputs is a translation or a pack with other numbers than 0.
    fn is_numbered(&self) -> bool {
        self.has(&["translation", "pack"], has_numbers)
    }

    /// Whether one of the inputs is a long tree, or a text that is as long.
    fn has_long_tree(&self) -> bool {
        self.has(&["tree", "text"], |tree| tree.len() >= LONG_TREE)
    }

    /// Whether what a search has found does not run to its target.
    fn runs_elsewhere(&self) -> bool {
        let Call::Search(case) = self.call else { return false };
        let Side { answer, buffers } = &self.library;
        let found = buffers.output.get(..answer.length as usize).unwrap_or_default();
        let run = || laws::run_to(&case.translation, case.root, found, case.tree.len());
        answer.number == 0 && run() != (0, case.tree.clone())
    }

    /// The lines of a difference, with everything that is needed to repeat it.
    fn lines(&self) -> Vec<String> {
        let (library, reference) = (&self.library, &self.reference);
        let mut lines = vec![
            format!("  library:   {:?}", library.answer),
            format!("  reference: {:?}", reference.answer),
        ];
        let (one, other) = (&library.buffers, &reference.buffers);
        let outputs = [("output", &one.output, &other.output), ("index", &one.index, &other.index)];
        for (name, one, other) in outputs {
            if let Some(place) = first_difference(one, other) {
                lines.push(format!("  {name} differs first at byte {place}"));
                lines.push(format!("  library {name}:   {}", output_shown(one, place)));
                lines.push(format!("  reference {name}: {}", output_shown(other, place)));
            }
        }
        if let Some(place) = first_difference(&one.workspace, &other.workspace) {
            lines.push(format!("  workspaces differ first at byte {place}"));
        }
        if self.runs_elsewhere() {
            lines.push("  what is found does not run to the target".to_string());
        }
        lines.extend(self.call.inputs().into_iter().map(|(name, input)| line(name, input)));
        lines
    }
}

/// Prints a difference.
fn report(operation: &Operation, seed: u64, case: u64, lines: &[String]) {
    println!("DIFFERENCE in {}, seed {seed}, case {case}", operation.name);
    lines.iter().for_each(|line| println!("{line}"));
}

/// Differences are printed in full up to this number for each operation.
const SHOWN: usize = 5;

/// What was found on some cases: how often each number was reached, on long trees and on files with
/// other numbers too, and the differences by their cases.
struct Found {
    reached: [u64; NUMBERS],
    reached_long: [u64; NUMBERS],
    reached_numbered: [u64; NUMBERS],
    differences: Vec<(u64, Vec<String>)>,
}

impl Found {
    /// Nothing yet.
    fn nothing() -> Found {
        let none = [0; NUMBERS];
        Found { reached: none, reached_long: none, reached_numbered: none, differences: vec![] }
    }

    /// Adds what one case found.
    fn add(&mut self, case: u64, finding: Finding) {
        for &number in &finding.reached {
            self.reached[number] += 1;
            self.reached_long[number] += u64::from(finding.long);
            self.reached_numbered[number] += u64::from(finding.numbered);
        }
        self.differences.extend(finding.difference.map(|lines| (case, lines)));
    }

    /// Adds what other cases found.
    fn unite(&mut self, other: Found) {
        for number in 0..NUMBERS {
            self.reached[number] += other.reached[number];
            self.reached_long[number] += other.reached_long[number];
            self.reached_numbered[number] += other.reached_numbered[number];
        }
        self.differences.extend(other.differences);
    }
}

/// Compares one operation on every `step`th case from a first one on.
fn compare_some(
    operation: &Operation,
    first: u64,
    end: u64,
    step: usize,
    request: &Request,
) -> Found {
    let mut found = Found::nothing();
    for case in (first..end).step_by(step) {
        if request.trace {
            eprintln!("{}, seed {}, case {case}", operation.name, request.seed);
        }
        let mut random = Random::new(case_seed(request.seed, operation, case));
        found.add(case, operation.find(&mut random));
    }
    found
}

/// Compares one operation on all cases, on as many threads as the machine runs at once; on one where
/// the cases are told one by one.
fn compare_each(operation: &Operation, cases: u64, request: &Request) -> Found {
    let threads = if request.trace { 1 } else { available_parallelism().map_or(1, usize::from) };
    let (first, end) = (request.first, request.first + cases);
    let share = |place: usize| compare_some(operation, first + place as u64, end, threads, request);
    let mut found = Found::nothing();
    scope(|scope| {
        let started: Vec<_> = (0..threads).map(|place| scope.spawn(move || share(place))).collect();
        for thread in started {
            found.unite(thread.join().expect("a thread of cases ends"));
        }
    });
    found.differences.sort();
    found
}

/// Compares one operation on all cases; gives the number of differences and missing answers.
fn compare_all(operation: &Operation, cases: u64, request: &Request) -> (u64, u64) {
    let (seed, start) = (request.seed, Instant::now());
    let found = compare_each(operation, cases, request);
    for (case, lines) in found.differences.iter().take(SHOWN) {
        report(operation, seed, *case, lines);
    }
    let seconds = start.elapsed().as_secs_f64();
    println!("{}: {cases} cases, seed {seed}, {seconds:.1} s", operation.name);
    let missing = print_reached(operation, &found.reached);
    let long = format!("trees or texts of {LONG_TREE} bytes or more");
    print_some(operation, &long, &found.reached_long);
    print_some(operation, "files with other numbers than 0", &found.reached_numbered);
    (found.differences.len() as u64, missing)
}

/// Prints how many cases are of some sort and how often each number was reached on them, if any.
fn print_some(operation: &Operation, what: &str, reached: &[u64; NUMBERS]) {
    let cases: u64 = reached.iter().sum();
    if cases == 0 {
        return;
    }
    println!("  {what}: {cases}, of which");
    for number in (0..NUMBERS).filter(|&number| reached[number] > 0) {
        println!("    {}: {:8}", operation.label(number), reached[number]);
    }
}

/// Prints how often each number was reached; gives the number of those never reached.
fn print_reached(operation: &Operation, reached: &[u64; NUMBERS]) -> u64 {
    let mut missing = 0;
    for number in operation.possible() {
        let label = operation.label(number);
        println!("  {label}: {:8}", reached[number]);
        if reached[number] == 0 {
            println!("MISSING: {} never reached {label}", operation.name);
            missing += 1;
        }
    }
    missing
}

fn main() -> ExitCode {
    let request = match request(std::env::args().skip(1)) {
        Ok(request) => request,
        Err(message) => {
            eprintln!("{message}");
            eprintln!(
                "usage: differential OPERATION... [--cases N] [--seed N] [--first N] [--trace]"
            );
            return ExitCode::from(2);
        }
    };
    let count = request.operations.len() as u64;
    let (mut compared, mut failed, mut missing) = (0, 0, 0);
    for (place, operation) in request.operations.iter().enumerate() {
        let share = request.cases / count + u64::from((place as u64) < request.cases % count);
        let (different, absent) = compare_all(operation, share, &request);
        compared += share;
        failed += different;
        missing += absent;
    }
    println!("{} passed, {} failed", compared - failed, failed + missing);
    ExitCode::from(u8::from(failed + missing > 0))
}
