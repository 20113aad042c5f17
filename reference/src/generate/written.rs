//! Files in which steps of 1 are written too, though they need not be.

use super::damage::{put_together, take_apart, Part};
use super::languages::{encoded, full_language};
use super::random::Random;
use crate::language::{Language, CLASS_TAG, LANGUAGE_LIMIT};
use crate::pack::LANGUAGE_TAG;
use crate::translation::{SOURCE_TAG, TARGET_TAG};
use std::num::NonZeroU16;

/// Tags of fields whose contents are a language.
const LANGUAGES: [u8; 3] = [SOURCE_TAG, TARGET_TAG, LANGUAGE_TAG];
/// The length of a class without its step, and a step of 1.
const PLAIN: usize = 5;
const ONE: [u8; 2] = [0, 1];

/// Whether a field is a class without its step.
fn is_plain(part: &Part) -> bool {
    part.tag == CLASS_TAG && part.contents.len() == PLAIN
}

/// Writes the steps of so many of a hundred classes of a language, as long as it is within its
/// limit; bytes that are not whole fields stay as they are.
pub fn write_steps(random: &mut Random, percent: usize, language: &mut Vec<u8>) {
    let mut room = LANGUAGE_LIMIT.saturating_sub(language.len());
    let Some(mut parts) = take_apart(language) else { return };
    for part in parts.iter_mut().filter(|part| is_plain(part)) {
        if room >= ONE.len() && random.percent(percent) {
            part.contents.extend_from_slice(&ONE);
            room -= ONE.len();
        }
    }
    *language = put_together(&parts);
}

/// Writes the steps of some classes in the languages of a translation or a pack.
pub fn write_steps_within(random: &mut Random, file: &mut Vec<u8>) {
    let Some(mut parts) = take_apart(file) else { return };
    for part in parts.iter_mut().filter(|part| LANGUAGES.contains(&part.tag)) {
        write_steps(random, 50, &mut part.contents);
    }
    *file = put_together(&parts);
}

/// The number of classes of step 1.
fn plain_classes(language: &Language) -> usize {
    language.classes.iter().filter(|class| class.step == NonZeroU16::MIN).count()
}

/// A well-formed language, and bytes that say the same in exactly so many: some steps of 1, as
/// many as wanted, are written.
pub fn full_with_steps(random: &mut Random, bytes: usize, steps: usize) -> (Language, Vec<u8>) {
    loop {
        let language = full_language(random, bytes - ONE.len() * steps);
        if plain_classes(&language) >= steps {
            let mut parts = take_apart(&encoded(&language)).expect("a well-formed language");
            let plain = parts.iter_mut().filter(|part| is_plain(part));
            plain.take(steps).for_each(|part| part.contents.extend_from_slice(&ONE));
            return (language, put_together(&parts));
        }
    }
}

#[cfg(test)]
mod tests {
    use super::*;
    use crate::call::Call;
    use crate::generate::{
        block_case, botched_case, edit_case, export_case, import_case, index_case, join_table_case,
        loose_case,
    };
    use crate::generate::{mask_case, search_case};
    use crate::generate::{reduce_case, run_case, score_case, translation_file, tree_case};
    use crate::pack::PACK_LIMIT;
    use crate::translation::TRANSLATION_LIMIT;

    /// Writes steps in the files of a call.
    fn write_in(random: &mut Random, call: &mut Call) {
        match call {
            Call::CheckLanguage(language) => write_steps(random, 80, language),
            Call::CheckTree(case) | Call::Locate(case) => {
                write_steps(random, 80, &mut case.language)
            }
            Call::CheckTranslation(file) => write_steps_within(random, file),
            Call::Run(case) => write_steps_within(random, &mut case.translation),
            Call::Search(case) => write_steps_within(random, &mut case.translation),
            Call::Reduce(case) => write_steps_within(random, &mut case.pack),
            Call::Score(case) => write_steps(random, 80, &mut case.language),
            Call::ScoreLoose(case) => write_steps(random, 80, &mut case.language),
            Call::JoinTable(case) => write_steps_within(random, &mut case.translation),
            Call::Export(case) => write_steps(random, 80, &mut case.language),
            Call::Import(case) => write_steps(random, 80, &mut case.language),
            Call::Index(case) => write_steps(random, 80, &mut case.language),
            Call::Block(case) | Call::Node(case) => write_steps(random, 80, &mut case.language),
            Call::Edit(case) => write_steps(random, 80, &mut case.language),
            Call::Mask(case) => write_steps(random, 80, &mut case.language),
        }
    }

    /// Whether the file of a call is within the limit of the whole file.
    fn is_within_limit(call: &Call) -> bool {
        match call {
            Call::CheckTranslation(file) => file.len() <= TRANSLATION_LIMIT,
            Call::Run(case) => case.translation.len() <= TRANSLATION_LIMIT,
            Call::Search(case) => case.translation.len() <= TRANSLATION_LIMIT,
            Call::Reduce(case) => case.pack.len() <= PACK_LIMIT,
            Call::JoinTable(case) => case.translation.len() <= TRANSLATION_LIMIT,
            _ => true,
        }
    }

    /// Compares so many calls with and without steps of 1; gives how many were changed.
    fn compare(cases: usize, make: fn(&mut Random) -> Call) -> usize {
        let mut random = Random::new(5);
        let mut changed = 0;
        for case in 0..cases {
            let call = make(&mut random);
            let mut other = call.clone();
            write_in(&mut random, &mut other);
            if is_within_limit(&other) {
                let (mut buffers, mut other_buffers) = (call.buffers(), other.buffers());
                let answer = call.by_reference(&mut buffers);
                assert_eq!(answer, other.by_reference(&mut other_buffers), "case {case}");
                assert!(buffers == other_buffers, "case {case}");
                changed += usize::from(format!("{call:?}") != format!("{other:?}"));
            }
        }
        changed
    }

    #[test]
    fn written_steps_of_1_change_no_answer() {
        let makers: [fn(&mut Random) -> Call; 16] = [
            |random| Call::CheckTree(tree_case(random)),
            |random| Call::Locate(botched_case(random)),
            |random| Call::Node(block_case(random)),
            |random| Call::CheckTranslation(translation_file(random)),
            |random| Call::Run(run_case(random)),
            |random| Call::Search(search_case(random)),
            |random| Call::Reduce(reduce_case(random)),
            |random| Call::Score(score_case(random)),
            |random| Call::ScoreLoose(loose_case(random)),
            |random| Call::JoinTable(join_table_case(random)),
            |random| Call::Export(export_case(random)),
            |random| Call::Import(import_case(random)),
            |random| Call::Index(index_case(random)),
            |random| Call::Block(block_case(random)),
            |random| Call::Edit(edit_case(random)),
            |random| Call::Mask(mask_case(random)),
        ];
        for make in makers {
            let changed = compare(5000, make);
            assert!(changed > 1000, "{changed}");
        }
    }
}
