//! Times the library against the reference on the same inputs.
//!
//! The ratio is the reference's time over the library's: 1.0 or more if the library is
//! at least as fast.
//!
//! Usage: bench [SECTION...]

#![deny(unsafe_code)]

mod block;
mod clock;
mod dropped;
mod inputs;
mod mask;
mod measure;
mod score;
mod search;
mod sessions;
mod xml;

use algebra::raw as library;
use inputs::Inputs;
use measure::{compare, growth, Growth, Timing};
use std::hint::black_box;

/// Sizes of the trees in bytes, about.
const SIZES: [(&str, usize); 3] = [("1 KB", 1000), ("100 KB", 100_000), ("8 MB", 10_000_000)];

/// Prints one line: what was measured, the times, the times for a byte and the ratio.
fn print_line(name: &str, bytes: usize, timing: Timing) {
    let (library, reference) = (timing.library, timing.reference);
    println!(
        "{name:42} {bytes:9} {library:14.0} {reference:14.0} {:9.2} {:9.2} {:7.2}",
        library / bytes as f64,
        reference / bytes as f64,
        timing.ratio
    );
}

/// Prints the heading of the lines.
fn print_heading() {
    println!(
        "{:42} {:>9} {:>14} {:>14} {:>9} {:>9} {:>7}",
        "operation", "bytes", "library ns", "reference ns", "ns/byte", "ns/byte", "ratio"
    );
}

/// Measures the check of a full language.
fn bench_check_language() {
    let language = inputs::full_language();
    assert_eq!(library::check_language(&language), 0);
    assert_eq!(reference::check_language(&language).number(), 0);
    let timing = compare(
        || library::check_language(black_box(&language)),
        || reference::check_language(black_box(&language)),
    );
    print_line("check_language, 1,024 bytes", language.len(), timing);
}

/// Measures the check of trees of three sizes, and how the time for a byte grows.
fn bench_check_tree() {
    let language = inputs::tree_language();
    let trees = trees();
    for ((size, _), tree) in SIZES.iter().zip(&trees.sizes) {
        assert_eq!(library::check_tree(&language, 1, tree), 0);
        assert_eq!(reference::check_tree(&language, 1, tree).number(), 0);
        let timing = compare(
            || library::check_tree(black_box(&language), 1, black_box(tree)),
            || reference::check_tree(black_box(&language), 1, black_box(tree)),
        );
        print_line(&format!("check_tree, {size}"), tree.len(), timing);
    }
    let growth = growth(
        &trees.small,
        trees.large(),
        |tree| (library::check_tree(black_box(&language), 1, tree), ()),
        |tree| (reference::check_tree(black_box(&language), 1, tree).number(), ()),
    );
    print_growth("check_tree", growth);
}

/// The trees of the three sizes, and different small ones.
fn trees() -> Inputs {
    Inputs::new(inputs::wide_tree)
}

/// Prints the time for a byte at 8 MB over that at 100 KB, for both sides.
fn print_growth(name: &str, growth: Growth) {
    print_growth_of(name, "8 MB over 100 KB", growth);
}

/// Prints the time for a byte at one size over that at another, for both sides.
fn print_growth_of(name: &str, sizes: &str, growth: Growth) {
    println!(
        "{name}: ns/byte at {sizes}: library {:.2}, reference {:.2}",
        growth.library, growth.reference
    );
}

/// Measures the check of a translation from the empty language into a full one.
fn bench_check_translation() {
    let mut translation = [0x20, 0, 0, 0x21, 4, 0].to_vec();
    translation.extend(inputs::full_language());
    assert_eq!(library::check_translation(&translation), 0);
    assert_eq!(reference::check_translation(&translation).number(), 0);
    let timing = compare(
        || library::check_translation(black_box(&translation)),
        || reference::check_translation(black_box(&translation)),
    );
    print_line("check_translation, empty to 1,024 bytes", translation.len(), timing);
}

mod run {
    use super::*;
    use inputs::runs;
    use reference::generate::{with_turns, with_twin};

    /// The number besides 0 that some translations have.
    const NUMBER: u8 = 15;

    /// The length of an output with room for each of the results from a tree.
    fn room(tree: &[u8]) -> usize {
        4 * tree.len() + 64
    }

    /// Measures one run by number 0, with an output that has room for the result.
    fn bench_one(name: &str, translation: &[u8], tree: &[u8]) -> Timing {
        bench_by(name, translation, 0, tree)
    }

    /// Measures one run by a number.
    fn bench_by(name: &str, translation: &[u8], number: u32, tree: &[u8]) -> Timing {
        let mut output = vec![0; room(tree)];
        let expected = reference::run(translation, 1, number, tree, &mut output);
        assert_eq!(expected.number(), 0);
        let mut library_output = vec![0; output.len()];
        let found = library::run(translation, 1, number, tree, &mut library_output);
        assert_eq!((found.number, found.length), (0, expected.length()));
        assert_eq!(found.cost, expected.cost);
        assert_eq!(output, library_output);
        let timing = compare(
            || library::run(translation, 1, number, black_box(tree), &mut library_output),
            || reference::run(translation, 1, number, black_box(tree), &mut output),
        );
        print_line(name, tree.len(), timing);
        timing
    }

    /// Measures how the time for a byte of a run by a number grows from the small trees to the
    /// large one.
    fn bench_growth(name: &str, translation: &[u8], number: u32, trees: &Inputs) {
        let mut output = vec![0; room(trees.large())];
        let mut library_output = output.clone();
        let growth = growth(
            &trees.small,
            trees.large(),
            |tree| {
                let output = &mut library_output[..room(tree)];
                let answer = library::run(translation, 1, number, tree, output);
                (answer.number, (answer.length, answer.cost))
            },
            |tree| {
                let output = &mut output[..room(tree)];
                let outcome = reference::run(translation, 1, number, tree, output);
                (outcome.number(), (outcome.length(), outcome.cost))
            },
        );
        print_growth(name, growth);
    }

    /// Measures translations with a second number: one whose clauses use their arguments by that
    /// number, and one whose numbers take turns.
    pub fn bench_numbers() {
        let swapping = runs::swapping();
        let by = u32::from(NUMBER);
        let trees = trees();
        for (name, translation) in [
            ("swapping by a number", with_twin(&swapping, NUMBER)),
            ("swapping by turns", with_turns(&swapping, NUMBER)),
        ] {
            for ((size, _), tree) in SIZES.iter().zip(&trees.sizes) {
                bench_by(&format!("run, {name}, {size}"), &translation, by, tree);
            }
            bench_growth(&format!("run, {name}"), &translation, by, &trees);
        }
    }

    /// Measures the four translations on trees of three sizes, and a chain and a flat tree.
    pub fn bench() {
        let translations = [
            ("identity", runs::identity()),
            ("doubling", runs::doubling()),
            ("swapping", runs::swapping()),
            ("dropping", runs::dropping()),
        ];
        let trees = trees();
        for (name, translation) in &translations {
            for ((size, _), tree) in SIZES.iter().zip(&trees.sizes) {
                bench_one(&format!("run, {name}, {size}"), translation, tree);
            }
            bench_growth(&format!("run, {name}"), translation, 0, &trees);
        }
        for (name, translation) in &translations {
            let (chain, flat) = (runs::chain_tree(), runs::flat_tree());
            assert_eq!(chain.len(), flat.len());
            let deep = bench_one(&format!("run, {name}, chain of 60 levels"), translation, &chain);
            let wide = bench_one(&format!("run, {name}, flat tree"), translation, &flat);
            println!(
                "run, {name}: chain over flat: library {:.2}, reference {:.2}",
                deep.library / wide.library,
                deep.reference / wide.reference
            );
        }
    }
}

mod reduce {
    use super::*;
    use inputs::packs;

    /// Measures one reduction.
    fn bench_one(name: &str, pack: &[u8]) {
        let (mut workspace, mut output) = (vec![0; 65_536], vec![0; 4096]);
        let (mut library_workspace, mut library_output) = (workspace.clone(), output.clone());
        let expected = reference::reduce(pack, &mut workspace, &mut output);
        assert_eq!(expected.number(), 0);
        let found = library::reduce(pack, &mut library_workspace, &mut library_output);
        assert_eq!((found.number, found.length), (0, expected.length()));
        assert_eq!(output, library_output);
        let timing = compare(
            || library::reduce(black_box(pack), &mut library_workspace, &mut library_output),
            || reference::reduce(black_box(pack), &mut workspace, &mut output),
        );
        print_line(&format!("reduce, {name} (gives {})", expected.length()), pack.len(), timing);
    }

    /// Measures the example, built and generated sums, joins and identities, and nested sums.
    pub fn bench() {
        bench_one("example", &packs::example());
        bench_one("sum", &packs::sum());
        bench_one("join", &packs::join());
        bench_one("identity", &packs::identity());
        bench_one("nested sums", &packs::nested_sums());
        bench_one("largest sum found", &packs::largest(0x53));
        bench_one("largest join found", &packs::largest(0x54));
        bench_one("largest identity found", &packs::largest(0x55));
    }
}

/// What can be timed, by name.
const SECTIONS: [(&str, fn()); 13] = [
    ("check_language", bench_check_language),
    ("check_tree", bench_check_tree),
    ("check_translation", bench_check_translation),
    ("run", run::bench),
    ("dropped", dropped::bench),
    ("numbers", run::bench_numbers),
    ("reduce", reduce::bench),
    ("score", score::bench),
    ("xml", xml::bench),
    ("block", block::bench),
    ("mask", mask::bench),
    ("search", search::bench),
    ("sessions", sessions::bench),
];

/// Says which sections there are, and ends.
fn refuse(unknown: &str) -> ! {
    let names = SECTIONS.map(|(name, _)| name).join(", ");
    eprintln!("no section {unknown}; there are {names}");
    std::process::exit(2);
}

fn main() {
    let wanted: Vec<String> = std::env::args().skip(1).collect();
    let is_section = |wanted: &&String| SECTIONS.iter().any(|(name, _)| name == wanted);
    if let Some(unknown) = wanted.iter().find(|wanted| !is_section(wanted)) {
        refuse(unknown);
    }
    print_heading();
    for (name, bench) in SECTIONS {
        if wanted.is_empty() || wanted.iter().any(|wanted| wanted == name) {
            bench();
        }
    }
}
