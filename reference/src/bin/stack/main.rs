//! Measures the stack that each operation of the library uses, on inputs built to use much
//! and on random ones. It fails above the bound that the header gives.
//!
//! Usage: stack [--seed N] [--list]

#![forbid(unsafe_code)]

mod mixed;
mod packs;
mod sessions;
mod shapes;

use algebra::STACK_BYTES;
use mixed::Mixed;
use reference::call::{Answer, Buffers, Call};
use reference::check_translation;
use reference::generate::{
    botched_case, language_file, long_run_case, long_tree_case, reduce_case, run_case,
    translation_file, tree_case, with_turns, with_twin, Random, ReduceCase, RunCase, TreeCase,
};
use reference::stack::{on_large_stack, LargeStack};
use shapes::{shapes, Detour, Order, Shape, Size, ROOT, TREE_LEVELS};
use std::process::ExitCode;

/// So many random inputs are made for each operation by each generator.
const RANDOM_CASES: usize = 400;
/// So many of them have long trees.
const LONG_CASES: usize = 40;

/// An output that is long enough for the runs that are built here.
const OUTPUT: usize = 1 << 16;
/// The number besides 0 that some translations have.
const NUMBER: u8 = 15;
/// The least workspace and output to reduce with.
const WORKSPACE: usize = 65_536;
const REDUCED: usize = 4096;

/// What stands in the header for the bound.
const HEADER: &str = include_str!("../../../include/algebra.h");
const MACRO: &str = "#define ALGEBRA_STACK_BYTES ";

/// A call with a name by which it is found again.
struct Case {
    name: String,
    call: Call,
}

/// What one operation needed: the most bytes, for which input, and how many failed.
#[derive(Default)]
struct Finding {
    most: usize,
    worst: String,
    cases: usize,
    failed: usize,
}

/// What the arguments ask for.
struct Request {
    seed: u64,
    /// Whether each case is printed.
    list: bool,
}

/// Trees of one shape, with their names; some are one level too deep.
fn trees(shape: &Shape) -> Vec<(String, Vec<u8>)> {
    let mut detours = vec![Detour::None, Detour::Token];
    if shape.size != Size::Lean {
        let levels = [1, TREE_LEVELS / 2, TREE_LEVELS - 5];
        detours.extend(levels.map(Detour::LongBefore));
        detours.extend(levels.map(Detour::LongAfter));
        detours.extend([1, TREE_LEVELS - 4].map(Detour::Twice));
    }
    let tree = |levels, detour| {
        (format!("{levels} levels, {detour:?}, {shape:?}"), shape.tree(levels, detour))
    };
    let whole = detours.into_iter().map(|detour| tree(TREE_LEVELS, detour));
    whole.chain([tree(TREE_LEVELS + 1, Detour::None)]).collect()
}

/// Checks of languages: full ones, small ones and the empty one.
fn language_cases() -> Vec<Case> {
    let sizes = [Size::Lean, Size::Small, Size::Wide, Size::Long];
    let shapes = sizes.into_iter().flat_map(shapes);
    let built = shapes.filter(|shape| shape.order == Order::Dropped);
    let built = built.map(|shape| (format!("{shape:?}"), shape.language()));
    let built = built.chain([("empty".to_string(), vec![])]);
    built.map(|(name, language)| Case { name, call: Call::CheckLanguage(language) }).collect()
}

/// Calls on translations with codes of 16 levels.
fn translation_cases(call: impl Fn(Vec<u8>) -> Call) -> Vec<Case> {
    let sizes = [Size::Lean, Size::Small, Size::Wide, Size::Long];
    let case = |shape: Shape| {
        let name = format!("{shape:?}");
        Case { name, call: call(shape.translation()) }
    };
    let shapes: Vec<Shape> = sizes.into_iter().flat_map(shapes).collect();
    let deeper = shapes.iter().filter(|shape| shape.order == Order::Dropped);
    let deeper = deeper.map(|shape| Shape { order: Order::TooDeep, ..*shape });
    shapes.iter().copied().chain(deeper).map(case).collect()
}

/// Calls on trees of 64 levels and one more.
fn tree_cases(call: impl Fn(&Shape, TreeCase) -> Call) -> Vec<Case> {
    let sizes = [Size::Lean, Size::Small, Size::Wide];
    let shapes = sizes.into_iter().flat_map(shapes).filter(|shape| shape.order == Order::Dropped);
    let cases = shapes.flat_map(|shape| {
        let (language, call) = (shape.language(), &call);
        trees(&shape).into_iter().map(move |(name, tree)| {
            let case = TreeCase { language: language.clone(), root: ROOT, tree };
            Case { name, call: call(&shape, case) }
        })
    });
    cases.collect()
}

/// Runs on trees of 64 levels by codes of 16 levels.
fn run_cases() -> Vec<Case> {
    let large = [Size::Wide, Size::Long].into_iter().flat_map(shapes);
    let large = large.filter(|shape| matches!(shape.order, Order::Dropped | Order::LowReversed));
    let small = [Size::Lean, Size::Small].into_iter().flat_map(shapes);
    let cases = small.chain(large).flat_map(|shape| {
        let translation = shape.translation();
        trees(&shape).into_iter().map(move |(name, tree)| {
            let translation = translation.clone();
            let case = RunCase { translation, root: ROOT, number: 0, tree, output: OUTPUT };
            Case { name, call: Call::Run(case) }
        })
    });
    cases.collect()
}

/// Runs by a second number, in whose clauses arguments are used by that number or, in turns with
/// number 0, by the other.
fn numbered_run_cases() -> Vec<Case> {
    let shapes = [Size::Lean, Size::Small].into_iter().flat_map(shapes);
    let shapes = shapes.filter(|shape| matches!(shape.order, Order::Dropped | Order::LowReversed));
    let both = shapes.flat_map(|shape| {
        let plain = shape.translation();
        [with_twin(&plain, NUMBER), with_turns(&plain, NUMBER)]
            .map(|translation| (shape, translation))
    });
    let fitting = both.filter(|(_, translation)| check_translation(translation).number() == 0);
    let cases = fitting.flat_map(|(shape, translation)| {
        trees(&shape).into_iter().map(move |(name, tree)| {
            let (translation, number) = (translation.clone(), u32::from(NUMBER));
            let case = RunCase { translation, root: ROOT, number, tree, output: OUTPUT };
            Case { name: format!("by number {NUMBER}, {name}"), call: Call::Run(case) }
        })
    });
    cases.collect()
}

/// A run by random codes of 16 levels on a random tree of 64.
fn mixed_run(random: &mut Random) -> RunCase {
    let mixed = Mixed::new(random);
    let (translation, tree) = (mixed.translation(random), mixed.tree(random));
    RunCase { translation, root: ROOT, number: 0, tree, output: OUTPUT }
}

/// A reduction with the least room.
fn packed(pack: Vec<u8>) -> Call {
    Call::Reduce(ReduceCase { pack, workspace: WORKSPACE, output: REDUCED })
}

/// Reductions of terms of 12 levels.
fn reduce_cases() -> Vec<Case> {
    let packs = packs::fixed_packs().into_iter();
    packs.map(|(name, pack)| Case { name, call: packed(pack) }).collect()
}

/// So many random calls, made one by one.
fn random_cases(seed: u64, count: usize, what: &str, call: fn(&mut Random) -> Call) -> Vec<Case> {
    let mut random = Random::new(seed);
    let case = |number| Case {
        name: format!("{what}, seed {seed}, number {number}"),
        call: call(&mut random),
    };
    (0..count).map(case).collect()
}

/// All cases of checks, reductions and runs.
fn first_cases(seed: u64) -> Vec<Vec<Case>> {
    let random = |count, what, call| random_cases(seed, count, what, call);
    let most = RANDOM_CASES;
    let language = random(most, "random", |r| Call::CheckLanguage(language_file(r)));
    let translation = random(most, "random", |r| Call::CheckTranslation(translation_file(r)));
    let tree = random(most, "random", |r| Call::CheckTree(tree_case(r)));
    let botched = random(most, "botched", |r| Call::Locate(botched_case(r)));
    let botched_long = random(LONG_CASES, "long tree", |r| Call::Locate(long_tree_case(r)));
    let reduce = random(most, "random", |r| Call::Reduce(reduce_case(r)));
    let signs = random(most, "random signs", |r| packed(packs::shape_pack(r)));
    let mixed = random(most, "random signs and codes", |r| packed(packs::mixed_pack(r)));
    let run = random(most, "random", |r| Call::Run(run_case(r)));
    let deep = random(most, "random codes", |r| Call::Run(mixed_run(r)));
    let long = random(LONG_CASES, "long tree", |r| Call::Run(long_run_case(r).case));
    vec![
        language_cases().into_iter().chain(language).collect(),
        translation_cases(Call::CheckTranslation).into_iter().chain(translation).collect(),
        tree_cases(|_, case| Call::CheckTree(case)).into_iter().chain(tree).collect(),
        tree_cases(|_, case| Call::Locate(case))
            .into_iter()
            .chain(botched)
            .chain(botched_long)
            .collect(),
        reduce_cases().into_iter().chain(reduce).chain(signs).chain(mixed).collect(),
        run_cases()
            .into_iter()
            .chain(numbered_run_cases())
            .chain(run)
            .chain(deep)
            .chain(long)
            .collect(),
    ]
}

/// Calls the library, and gives the bytes of stack with what it answered and left.
fn measured(stack: &LargeStack, call: &Call) -> (usize, Answer, Buffers) {
    let (mut buffers, mut answer) = (call.buffers(), Answer::default());
    let used = stack.bytes_used(&mut || answer = call.by_library(&mut buffers));
    (used, answer, buffers)
}

impl Finding {
    /// Measures a case, and compares the answer with the reference's.
    fn add(&mut self, stack: &LargeStack, case: &Case, list: bool) {
        let mut buffers = case.call.buffers();
        let expected = case.call.by_reference(&mut buffers);
        let (used, found, left) = measured(stack, &case.call);
        let alike = (found, left) == (expected, buffers);
        self.cases += 1;
        self.failed += usize::from(used > STACK_BYTES || !alike);
        let line = format!("{used:9} bytes, answer {:2}: {}", found.number, case.name);
        if list || !alike {
            println!("{} {line}{}", case.call.operation(), if alike { "" } else { ", DIFFERS" });
        }
        if used > self.most {
            (self.most, self.worst) = (used, line);
        }
    }
}

/// Measures all cases of one operation and prints the most that it needed.
fn measure_all(stack: &LargeStack, cases: &[Case], list: bool) -> Finding {
    let mut finding = Finding::default();
    cases.iter().for_each(|case| finding.add(stack, case, list));
    let operation = cases.first().map_or("", |case| case.call.operation());
    println!("{operation}: {} inputs, {} of them failed", finding.cases, finding.failed);
    println!("  most: {}", finding.worst);
    finding
}

/// Whether the header gives the bound that is tested.
fn header_agrees() -> bool {
    let bound = HEADER.lines().find_map(|line| line.strip_prefix(MACRO));
    let agrees = bound == Some(STACK_BYTES.to_string().as_str());
    println!("bound: {STACK_BYTES} bytes, {}", if agrees { "as in the header" } else { "FAILED" });
    agrees
}

/// Reads the arguments, if they are right.
fn request(mut arguments: impl Iterator<Item = String>) -> Option<Request> {
    let mut request = Request { seed: 1, list: false };
    while let Some(argument) = arguments.next() {
        match argument.as_str() {
            "--seed" => request.seed = arguments.next()?.parse().ok()?,
            "--list" => request.list = true,
            _ => return None,
        }
    }
    Some(request)
}

fn main() -> ExitCode {
    let Some(Request { seed, list }) = request(std::env::args().skip(1)) else {
        eprintln!("usage: stack [--seed N] [--list]");
        return ExitCode::from(2);
    };
    let mut failed = usize::from(!header_agrees());
    let mut passed = 1 - failed;
    for cases in first_cases(seed).into_iter().chain(sessions::cases(seed)) {
        let finding = on_large_stack(|stack| measure_all(stack, &cases, list));
        passed += finding.cases - finding.failed;
        failed += finding.failed;
    }
    println!("{passed} passed, {failed} failed");
    ExitCode::from(u8::from(failed > 0))
}
