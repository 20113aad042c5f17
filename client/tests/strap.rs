//! The functions on the strap's translation "twice": what they answer and what they leave alone.

use algebra::{raw, Kind, MappingNumber, Pack, Refusal, Run, Translation, Tree};
use algebra::{Ran, TRANSLATION_BYTES, WORKSPACE_BYTES};

/// The pack of the example: the sum of "twice" and the identity of the strap.
const PACK: &[u8] = include_bytes!("../../examples/strap/plan.pack");

/// The kind of a block, and the number of its mapping.
const BLOCK: Kind = Kind(1);
const ZERO: MappingNumber = MappingNumber(0);

/// What fills a buffer before a call.
const MARK: u8 = 0xEE;

/// The translation that the pack reduces to.
fn twice() -> Vec<u8> {
    algebra::reduce_to_vec(Pack(PACK)).expect("the example reduces")
}

/// Runs the translation on a tree of blocks by number 0, in an output of at most so many bytes.
fn ran(tree: &[u8], limit: usize) -> Result<Ran, Refusal> {
    algebra::run_to_vec(Translation(&twice()), BLOCK, ZERO, Tree(tree), limit)
}

/// So many times twice, around a row of 5 minutes.
fn nested(levels: usize) -> Vec<u8> {
    [vec![4; levels], vec![1, 0, 5]].concat()
}

#[test]
fn an_output_is_left_alone_behind_the_result() {
    let mut output = [MARK; 9];
    let run = algebra::run(Translation(&twice()), BLOCK, ZERO, Tree(&nested(1)), &mut output);
    assert_eq!(run, Ok(Run { length: 7, cost: 3 }));
    assert_eq!(output, [2, 1, 0, 5, 1, 0, 5, MARK, MARK]);
}

#[test]
fn a_refusal_leaves_the_output_alone() {
    let mut output = [MARK; 6];
    let refused = algebra::run(Translation(&twice()), BLOCK, ZERO, Tree(&nested(1)), &mut output);
    assert_eq!(refused, Err(Refusal::OutputTooShort));
    assert_eq!(output, [MARK; 6]);
}

#[test]
fn a_long_result_is_allocated_up_to_the_limit() {
    let (tree, length) = (nested(12), 4 * (1 << 12) - 1);
    let run = |limit| ran(&tree, limit);
    assert_eq!(run(length).map(|result| result.tree.len()), Ok(length));
    assert_eq!(run(length).map(|result| result.cost), Ok(2 * (1 << 12) - 1));
    assert_eq!(run(1 << 20), run(length));
    assert_eq!(run(length - 1), Err(Refusal::OutputTooShort));
    assert_eq!(run(0), Err(Refusal::OutputTooShort));
    assert_eq!(ran(&nested(63), usize::MAX), Err(Refusal::OutputTooShort));
}

#[test]
fn levels_are_refused_before_the_length() {
    let run = |levels| ran(&nested(levels), 1000);
    assert_eq!(run(63), Err(Refusal::OutputTooShort));
    assert_eq!(run(64), Err(Refusal::TooDeep));
}

#[test]
fn the_raw_interface_shows_workspace_and_length() {
    let (mut workspace, mut output) = (vec![MARK; WORKSPACE_BYTES], vec![MARK; TRANSLATION_BYTES]);
    let short = raw::reduce(PACK, &mut workspace[1..], &mut output);
    assert_eq!(short, raw::Answer { number: 9, length: 0 });
    assert!(workspace.iter().chain(&output).all(|&byte| byte == MARK));
    let answer = raw::reduce(PACK, &mut workspace, &mut output);
    assert_eq!(answer, raw::Answer { number: 0, length: 116 });
    assert!(workspace.iter().all(|&byte| byte == 0));
    assert_eq!(output[..116], twice());
}

#[test]
fn threads_call_at_the_same_time() {
    std::thread::scope(|scope| {
        for levels in 1..8 {
            scope.spawn(move || {
                let result = ran(&nested(levels), 10_000);
                assert_eq!(result.map(|result| result.tree.len()), Ok(4 * (1 << levels) - 1));
            });
        }
    });
}
