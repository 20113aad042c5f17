//! Times of exports and imports.

use crate::inputs::{tree_language, wide_tree, Inputs};
use crate::measure::{compare, growth};
use crate::{print_growth, print_line, trees, SIZES};
use algebra::raw as library;
use reference::Outcome;
use std::hint::black_box;

/// The root kind of the trees.
const ROOT: u32 = 1;

/// An operation of both sides that makes an output of an input.
struct Operation {
    name: &'static str,
    library: fn(&[u8], u32, &[u8], &mut [u8]) -> library::Answer,
    reference: fn(&[u8], u32, &[u8], &mut [u8]) -> Outcome,
}

const EXPORT: Operation =
    Operation { name: "export", library: library::export, reference: reference::export };
const IMPORT: Operation =
    Operation { name: "import", library: library::import, reference: reference::import };

/// No text is longer than so many times its tree, and no tree than its text.
const LONGEST: usize = 20;

/// The text of a tree.
fn text_of(language: &[u8], tree: &[u8]) -> Vec<u8> {
    let mut text = vec![0; LONGEST * tree.len()];
    let outcome = reference::export(language, ROOT, tree, &mut text);
    assert_eq!(outcome.number(), 0);
    text.truncate(outcome.length() as usize);
    text
}

impl Operation {
    /// Measures the operation on one input.
    fn bench_one(&self, language: &[u8], size: &str, input: &[u8]) {
        let mut output = vec![0; LONGEST * input.len()];
        let mut library_output = output.clone();
        let expected = (self.reference)(language, ROOT, input, &mut output);
        let found = (self.library)(language, ROOT, input, &mut library_output);
        assert_eq!(expected.number(), 0);
        assert_eq!((found.number, found.length), (0, expected.length()));
        assert_eq!(output, library_output);
        let timing = compare(
            || (self.library)(black_box(language), ROOT, black_box(input), &mut library_output),
            || (self.reference)(black_box(language), ROOT, black_box(input), &mut output),
        );
        print_line(&format!("{}, {size}", self.name), input.len(), timing);
    }

    /// Measures the operation on inputs of three sizes, and how the time for a byte grows.
    fn bench(&self, language: &[u8], inputs: &Inputs) {
        for ((size, _), input) in SIZES.iter().zip(&inputs.sizes) {
            self.bench_one(language, size, input);
        }
        let mut output = vec![0; LONGEST * inputs.large().len()];
        let mut library_output = output.clone();
        let growth = growth(
            &inputs.small,
            inputs.large(),
            |input| {
                let answer = (self.library)(language, ROOT, input, &mut library_output);
                (answer.number, answer.length)
            },
            |input| {
                let outcome = (self.reference)(language, ROOT, input, &mut output);
                (outcome.number(), outcome.length())
            },
        );
        print_growth(self.name, growth);
    }
}

/// Measures exports of trees, and imports of texts, of three sizes.
pub fn bench() {
    let language = tree_language();
    let text = |bytes, seed| text_of(&language, &wide_tree(bytes / TEXT_FOR_A_BYTE, seed));
    let (trees, texts) = (trees(), Inputs::new(text));
    EXPORT.bench(&language, &trees);
    IMPORT.bench(&language, &texts);
}

/// The text of a tree has about so many bytes for each of the tree's.
const TEXT_FOR_A_BYTE: usize = 9;
