//! The law of runs, the law of sums and the laws of joins and identities, on random packs.

mod build;

use build::reduce_answer;
use reference::generate::{law_pack, Random};
use reference::laws::{
    law_of_regrouped_joins, law_of_runs, law_of_sums, laws_of_joins, Answer, Broken, Operations,
    Said, SAID,
};
use reference::run;

/// Reduces a pack.
fn reduce_pack(pack: &[u8]) -> Answer {
    let (number, bytes) = reduce_answer(pack);
    Answer::new(number, bytes.len() as u64, bytes)
}

/// Runs a translation by a number with an output of so many bytes.
fn run_tree(translation: &[u8], root: u32, number: u32, tree: &[u8], output: usize) -> Answer {
    let mut output = vec![0; output];
    let outcome = run(translation, root, number, tree, &mut output);
    Answer::new(outcome.number(), outcome.length(), output)
}

/// The operations of the reference.
const REFERENCE: Operations = Operations { reduce: &reduce_pack, run: &run_tree };

/// How often each thing was said of so many random packs, by the order of `Said`.
fn count(
    packs: usize,
    seed: u64,
    mut law: impl FnMut(&mut Random) -> Result<Vec<Said>, Broken>,
) -> Result<[usize; SAID.len()], Broken> {
    let mut random = Random::new(seed);
    let mut counts = [0; SAID.len()];
    for _ in 0..packs {
        for said in law(&mut random)? {
            counts[said as usize] += 1;
        }
    }
    Ok(counts)
}

/// Counts what the law of sums says.
fn count_sums(operations: &Operations, packs: usize) -> Result<[usize; SAID.len()], Broken> {
    count(packs, 11, |random| {
        let pack = law_pack(random);
        Ok(vec![law_of_sums(operations, random, &pack)?])
    })
}

/// Counts what the law of runs says.
fn count_runs(operations: &Operations, packs: usize) -> Result<[usize; SAID.len()], Broken> {
    count(packs, 12, |random| {
        let pack = law_pack(random);
        law_of_runs(operations, random, &pack)
    })
}

/// Counts what the laws of joins and identities say.
fn count_joins(operations: &Operations, packs: usize) -> Result<[usize; SAID.len()], Broken> {
    count(packs, 13, |random| {
        let pack = law_pack(random);
        laws_of_joins(operations, random, &pack)
    })
}

#[test]
fn sums_over_one_set_are_alike() {
    let counts = count_sums(&REFERENCE, 10_000).expect("the law holds");
    for said in [Said::SumsAccepted, Said::SumsRefused, Said::NumberedSums] {
        assert!(counts[said as usize] > 500, "{counts:?}");
    }
}

#[test]
fn a_join_runs_as_its_operands_one_after_the_other() {
    let counts = count_runs(&REFERENCE, 10_000).expect("the law holds");
    for said in [Said::Join, Said::Runs, Said::LongRuns, Said::NumberedRuns] {
        assert!(counts[said as usize] > 1000, "{counts:?}");
    }
}

#[test]
fn sums_that_depend_on_the_term_are_found() {
    let refuse_some = |pack: &[u8]| {
        if pack.len().is_multiple_of(2) {
            reduce_pack(pack)
        } else {
            Answer::new(12, 0, vec![])
        }
    };
    let broken = count_sums(&Operations { reduce: &refuse_some, ..REFERENCE }, 1000);
    assert!(broken.is_err_and(|broken| broken.what.contains("law of sums")));
    let change_last = |pack: &[u8]| {
        let (number, mut bytes) = reduce_answer(pack);
        bytes.iter_mut().last().into_iter().for_each(|byte| *byte ^= pack.len() as u8 & 1);
        Answer::new(number, bytes.len() as u64, bytes)
    };
    let broken = count_sums(&Operations { reduce: &change_last, ..REFERENCE }, 1000);
    assert!(broken.is_err_and(|broken| broken.what.contains("law of sums")));
}

#[test]
fn runs_that_depend_on_the_tree_are_found() {
    let too_long = |translation: &[u8], root: u32, number: u32, tree: &[u8], output: usize| {
        let room = if tree.len().is_multiple_of(2) { output } else { output / 2 };
        run_tree(translation, root, number, tree, room)
    };
    let broken = count_runs(&Operations { run: &too_long, ..REFERENCE }, 1000);
    assert!(broken.is_err_and(|broken| broken.what.contains("the answers differ")));
    let copy = |translation: &[u8], root: u32, number: u32, tree: &[u8], output: usize| {
        let answer = run_tree(translation, root, number, tree, output);
        match answer.number {
            0 => Answer::new(0, tree.len() as u64, tree.to_vec()),
            _ => answer,
        }
    };
    let broken = count_runs(&Operations { run: &copy, ..REFERENCE }, 1000);
    assert!(broken.is_err_and(|broken| broken.what.contains("law of runs")));
}

#[test]
fn joins_and_identities_keep_their_laws() {
    let counts = count_joins(&REFERENCE, 20_000).expect("the laws hold");
    for (said, least) in [
        (Said::JoinedSums, 1000),
        (Said::NumberedJoinedSums, 200),
        (Said::JoinsWithout, 1000),
        (Said::NumberedJoinsWithout, 500),
        (Said::IdentitiesAccepted, 2000),
        (Said::IdentitiesRefused, 300),
        (Said::RegroupedJoins, 1000),
    ] {
        assert!(counts[said as usize] > least, "{}: {counts:?}", SAID[said as usize]);
    }
}

/// The term of a pack.
fn term_of(pack: &[u8]) -> &[u8] {
    let mut rest = pack;
    while let [tag, high, low, behind @ ..] = rest {
        if *tag == 0x32 {
            return behind;
        }
        rest = &behind[usize::from(u16::from_be_bytes([*high, *low]))..];
    }
    &[]
}

/// Reduces a pack, but changes the last byte of what a term with this start reduces to.
fn changed_for(pack: &[u8], start: &[u8]) -> Answer {
    let (number, mut bytes) = reduce_answer(pack);
    if term_of(pack).starts_with(start) {
        bytes.iter_mut().last().into_iter().for_each(|byte| *byte ^= 1);
    }
    Answer::new(number, bytes.len() as u64, bytes)
}

/// Reduces a pack, but refuses a term with this start.
fn refused_for(pack: &[u8], start: &[u8]) -> Answer {
    match term_of(pack).starts_with(start) {
        true => Answer::new(11, 0, vec![]),
        false => reduce_pack(pack),
    }
}

/// The law that is broken first, if one is, where packs are reduced in this way.
fn broken_law(reduce: impl Fn(&[u8]) -> Answer + 'static) -> String {
    let broken = count_joins(&Operations { reduce: &reduce, ..REFERENCE }, 2000);
    broken.map_or_else(|broken| broken.what, |_| "none".to_string())
}

#[test]
fn joins_and_identities_that_break_a_law_are_found() {
    let laws: [(&'static [u8], &str); 3] = [
        (&[0x53, 0x54], "law of joined sums"),
        (&[0x55, 0x43], "law of identities"),
        (&[0x52, 0x54], "law of joins without"),
    ];
    for (start, law) in laws {
        let found = broken_law(move |pack| changed_for(pack, start));
        assert!(found.contains(law), "{start:02X?}: {found}");
    }
    let laws: [(&'static [u8], &str); 2] =
        [(&[0x53, 0x54], "law of joined sums"), (&[0x53, 0x55], "law of identities")];
    for (start, law) in laws {
        let found = broken_law(move |pack| refused_for(pack, start));
        assert!(found.contains(law), "{start:02X?}: {found}");
    }
}

/// What the law of regrouped joins alone says of random packs.
fn regrouped(operations: &Operations) -> Result<usize, Broken> {
    let counts = count(2000, 14, |random| {
        let pack = law_pack(random);
        let said = law_of_regrouped_joins(operations, random, &pack)?;
        Ok(said.into_iter().collect())
    });
    counts.map(|counts| counts[Said::RegroupedJoins as usize])
}

#[test]
fn groupings_are_compared_only_where_both_are_accepted() {
    let refused = |pack: &[u8]| refused_for(pack, &[0x54, 0x54]);
    assert!(regrouped(&Operations { reduce: &refused, ..REFERENCE }).is_ok());
    let changed = |pack: &[u8]| changed_for(pack, &[0x54, 0x54]);
    let broken = regrouped(&Operations { reduce: &changed, ..REFERENCE });
    assert!(broken.is_err_and(|broken| broken.what.contains("law of regrouped joins")));
}
