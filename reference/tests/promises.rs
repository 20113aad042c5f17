//! What is promised of every call: the reference keeps it, and what breaks it is found.

use reference::call::{Answer, Buffers, Call};
use reference::generate::{
    block_case, botched_case, edit_case, export_case, import_case, index_case, join_table_case,
    language_file, loose_case, mask_case, reduce_case, run_case, score_case, search_case,
    translation_file, tree_case, Random,
};
use reference::promises::{answers, broken, ANSWERS};

/// Makers of calls, one for each operation.
const MAKERS: [fn(&mut Random) -> Call; 17] = [
    |random| Call::CheckLanguage(language_file(random)),
    |random| Call::CheckTranslation(translation_file(random)),
    |random| Call::CheckTree(tree_case(random)),
    |random| Call::Reduce(reduce_case(random)),
    |random| Call::Run(run_case(random)),
    |random| Call::Score(score_case(random)),
    |random| Call::ScoreLoose(loose_case(random)),
    |random| Call::JoinTable(join_table_case(random)),
    |random| Call::Export(export_case(random)),
    |random| Call::Import(import_case(random)),
    |random| Call::Index(index_case(random)),
    |random| Call::Block(block_case(random)),
    |random| Call::Node(block_case(random)),
    |random| Call::Locate(botched_case(random)),
    |random| Call::Edit(edit_case(random)),
    |random| Call::Mask(mask_case(random)),
    |random| Call::Search(search_case(random)),
];

/// A call with its answer and the buffers before and after it.
struct Made {
    call: Call,
    answer: Answer,
    before: Buffers,
    after: Buffers,
}

impl Made {
    /// Makes a call by the reference.
    fn new(random: &mut Random, maker: fn(&mut Random) -> Call) -> Made {
        let call = maker(random);
        let before = call.buffers().marked(random);
        let mut after = before.clone();
        let answer = call.by_reference(&mut after);
        Made { call, answer, before, after }
    }

    /// What is broken.
    fn broken(&self) -> Option<&'static str> {
        broken(&self.call, &self.answer, &self.before, &self.after)
    }

    /// What is broken if the answer or the buffers are changed.
    fn changed(&self, change: impl Fn(&mut Answer, &mut Buffers)) -> Option<&'static str> {
        let (mut answer, mut after) = (self.answer, self.after.clone());
        change(&mut answer, &mut after);
        broken(&self.call, &answer, &self.before, &after)
    }
}

#[test]
fn the_reference_keeps_what_is_promised() {
    let mut random = Random::new(41);
    for (maker, (name, numbers)) in MAKERS.into_iter().zip(ANSWERS) {
        for case in 0..300 {
            let made = Made::new(&mut random, maker);
            assert_eq!(made.call.operation(), name);
            assert_eq!(made.broken(), None, "{name}, case {case}");
        }
        assert_eq!(answers(name), numbers);
    }
}

#[test]
fn another_number_a_figure_of_a_refusal_and_a_changed_buffer_are_found() {
    let mut random = Random::new(42);
    let mut refused = 0;
    for maker in MAKERS {
        for _ in 0..200 {
            let made = Made::new(&mut random, maker);
            assert!(made.changed(|answer, _| answer.number = 27).is_some());
            if made.answer.number != 0 {
                refused += 1;
                assert!(made.changed(|answer, _| answer.length = 1).is_some());
                assert!(made.changed(|answer, _| answer.kind = 1).is_some());
                assert!(made.changed(|answer, _| answer.position = u64::MAX).is_some());
            }
            assert_changes_found(&made);
        }
    }
    assert!(refused > 500, "{refused}");
}

/// A byte that is changed in the last place of any buffer is found, unless it is one of a result.
fn assert_changes_found(made: &Made) {
    let Buffers { workspace, output, index } = &made.after;
    if !workspace.is_empty() {
        assert!(made
            .changed(|_, after| *after.workspace.last_mut().expect("a byte") ^= 1)
            .is_some());
    }
    if made.answer.length < output.len() as u64 {
        assert!(made.changed(|_, after| *after.output.last_mut().expect("a byte") ^= 1).is_some());
    }
    if made.answer.index_length < index.len() as u64 {
        assert!(made.changed(|_, after| *after.index.last_mut().expect("a byte") ^= 1).is_some());
    }
    let results = made.answer.number == 0 && !matches!(made.call, Call::Block(_));
    if results {
        assert!(made
            .changed(|answer, after| answer.length = after.output.len() as u64 + 1)
            .is_some());
    }
}
