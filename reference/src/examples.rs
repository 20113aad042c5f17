//! The worked examples as one table, for any implementation: a language C, its extension K, a
//! strap W with a wider class, and what reduces and runs from them.

use crate::call::{Answer, Buffers, Call, WORKSPACE_MARK};
use crate::files::{
    card, class, clause, load, mapping, numbered_clause, numbered_mapping, pack, production,
    stepped_class, translation,
};
use crate::generate::{BlockCase, EditCase, ExportCase, ImportCase, IndexCase, JoinTableCase};
use crate::generate::{MaskCase, ReduceCase, RunCase, ScoreCase, SearchCase, TreeCase};
use crate::node::NO_NAME;
use crate::promises::{EARLY_REFUSALS, SEARCHED};
use crate::reduce::{OUTPUT_LEAST, WORKSPACE_LEAST};

/// A call with the answer and the bytes that it must give.
#[derive(Clone, Debug)]
pub struct Example {
    pub what: String,
    pub call: Call,
    pub answer: Answer,
    /// What stands first in the output of an accepted call.
    pub bytes: Vec<u8>,
    /// What stands first in the second output, for the index of an edited plan.
    pub index: Vec<u8>,
}

/// An output that is long enough for any result but an endless one.
const LONG_OUTPUT: usize = 1 << 20;

/// Class 2 of 1 to some value; productions 1.1 (2), 1.2 (1 1), 1.3 (2).
fn minutes_up_to(high: u16) -> Vec<u8> {
    [class(2, 1, high), production(1, 1, &[2]), production(1, 2, &[1, 1]), production(1, 3, &[2])]
        .concat()
}

/// Minutes of 1 to 240.
pub fn language_c() -> Vec<u8> {
    minutes_up_to(240)
}

/// Minutes of 1 to 600.
pub fn language_w() -> Vec<u8> {
    minutes_up_to(600)
}

/// Production 1.4 (1).
pub fn language_k() -> Vec<u8> {
    production(1, 4, &[1])
}

/// Kind 1 to itself; 1.4 (x) becomes 1.2 (x x).
fn body_k() -> Vec<u8> {
    [mapping(1, 1), clause(1, 4, &[1, 2, 3, 1, 3, 1])].concat()
}

/// C to C, or W to W: rest becomes row, the others stay.
fn rest_becomes_row() -> Vec<u8> {
    [
        mapping(1, 1),
        mapping(2, 2),
        clause(1, 1, &[1, 1, 3, 1]),
        clause(1, 2, &[1, 2, 3, 1, 3, 2]),
        clause(1, 3, &[1, 1, 3, 1]),
    ]
    .concat()
}

/// The term for K by its body plus the identity of C.
const SUM: [u8; 10] = [0x53, 0x50, 0x40, 0, 0x40, 1, 0, 0x55, 0x40, 1];

/// The pack of 71 bytes with constants K and C.
pub fn pack_with_sum() -> Vec<u8> {
    pack(&[language_k(), language_c()], &[body_k()], &SUM)
}

/// The pack that joins the sum, as second operand, with "rest becomes row".
fn pack_with_join() -> Vec<u8> {
    let first = [0x54, 0x50, 0x40, 1, 0x40, 1, 1];
    let bodies = [body_k(), rest_becomes_row()];
    pack(&[language_k(), language_c()], &bodies, &[&first[..], &SUM].concat())
}

/// The pack with the files of the club, for straps of 1 to 240, joined onto a strap of 1 to 600.
pub fn pack_with_wider_strap() -> Vec<u8> {
    let first = [0x54, 0x50, 0x40, 2, 0x40, 2, 1];
    let languages = [language_k(), language_c(), language_w()];
    let bodies = [body_k(), rest_becomes_row()];
    pack(&languages, &bodies, &[&first[..], &SUM].concat())
}

/// The packs that stand in files, with the names of their folders.
pub fn example_packs() -> Vec<(&'static str, Vec<u8>)> {
    vec![("strap", pack_with_sum()), ("wider", pack_with_wider_strap())]
}

/// C and K to C or W with this code for 1.3: what the sum, or a join, reduces to.
fn reduced_with(target: &[u8], rest: &[u8]) -> Vec<u8> {
    let body = [
        mapping(1, 1),
        mapping(2, 2),
        clause(1, 1, &[1, 1, 3, 1]),
        clause(1, 2, &[1, 2, 3, 1, 3, 2]),
        clause(1, 3, rest),
        clause(1, 4, &[1, 2, 3, 1, 3, 1]),
    ];
    translation(&[language_c(), language_k()].concat(), target, &body.concat())
}

/// The translation of 116 bytes that the pack with the sum reduces to.
pub fn sum() -> Vec<u8> {
    reduced_with(&language_c(), &[1, 3, 3, 1])
}

/// A run by a translation, with an output of so many bytes.
fn run_by(translation: &[u8], root: u32, tree: &[u8], output: usize) -> Call {
    run_by_number(translation, (root, 0), tree, output)
}

/// A run by a translation from a root by one of its numbers, with an output of so many bytes.
fn run_by_number(
    translation: &[u8],
    (root, number): (u32, u32),
    tree: &[u8],
    output: usize,
) -> Call {
    let (translation, tree) = (translation.to_vec(), tree.to_vec());
    Call::Run(RunCase { translation, root, number, tree, output })
}

/// A reduction with the least room.
fn reduction(pack: Vec<u8>) -> Call {
    Call::Reduce(ReduceCase { pack, workspace: WORKSPACE_LEAST, output: OUTPUT_LEAST })
}

/// A call that is accepted and gives these bytes.
fn accepted(what: &str, call: Call, bytes: &[u8]) -> Example {
    let length = bytes.len() as u64;
    Example {
        bytes: bytes.to_vec(),
        ..answered(what, call, Answer { length, ..Answer::default() })
    }
}

/// A run that is accepted, gives these bytes and applies so many clauses.
fn ran(what: &str, call: Call, bytes: &[u8], cost: u32) -> Example {
    let example = accepted(what, call, bytes);
    Example { answer: Answer { cost, ..example.answer }, ..example }
}

/// A call that is refused with the number.
fn refused(what: &str, call: Call, number: u32) -> Example {
    answered(what, call, Answer { number, ..Answer::default() })
}

/// A call that gives the answer and has no output.
fn answered(what: &str, call: Call, answer: Answer) -> Example {
    Example { what: what.to_string(), call, answer, bytes: vec![], index: vec![] }
}

/// So many times 04, then 01 00 05.
fn chain(length: usize) -> Vec<u8> {
    [vec![4; length], vec![1, 0, 5]].concat()
}

/// What the sum makes of so many times 04, then 01 00 05.
fn doubled(length: usize) -> Vec<u8> {
    (0..length).fold(vec![1, 0, 5], |below, _| [&[2], &below[..], &below].concat())
}

/// Runs by the sum, and one by the join, that are accepted.
fn accepted_runs() -> Vec<Example> {
    let (sum, twice) = (sum(), [2, 1, 0, 5, 1, 0, 5]);
    let row = [1, 0, 0xF0];
    let joined = reduced_with(&language_c(), &[1, 1, 3, 1]);
    vec![
        ran("twice", run_by(&sum, 1, &[4, 1, 0, 5], 1000), &twice, 3),
        ran("twice, output of 7 bytes", run_by(&sum, 1, &[4, 1, 0, 5], 7), &twice, 3),
        ran("the highest token", run_by(&sum, 1, &row, 9), &row, 1),
        ran("10 times 04, exact output", run_by(&sum, 1, &chain(10), 4095), &doubled(10), 2047),
        ran("the join", run_by(&joined, 1, &[4, 3, 0, 3], 1000), &[2, 1, 0, 3, 1, 0, 3], 3),
        ran("a token alone", run_by(&sum, 2, &[0, 5], 2), &[0, 5], 0),
    ]
}

/// Runs by the sum that are refused.
fn refused_runs() -> Vec<Example> {
    let sum = sum();
    let run = |root, tree: &[u8], output| run_by(&sum, root, tree, output);
    vec![
        refused("twice, output of 6 bytes", run(1, &[4, 1, 0, 5], 6), 17),
        refused("a token above the range", run(1, &[1, 0, 0xF1], 9), 15),
        refused("a token below the range", run(1, &[1, 0, 0], 9), 15),
        refused("an empty tree", run(1, &[], 9), 15),
        refused("a byte left over", run(1, &[1, 0, 5, 0], 9), 15),
        refused("root 9", run(9, &[1, 0, 5], 9), 14),
        refused("62 times 04: 63 levels", run(1, &chain(62), LONG_OUTPUT), 17),
        refused("63 times 04: 64 levels", run(1, &chain(63), LONG_OUTPUT), 17),
        refused("63 times 04, no output", run(1, &chain(63), 0), 17),
        refused("64 times 04: 65 levels", run(1, &chain(64), LONG_OUTPUT), 16),
        refused("10 times 04, one byte short", run(1, &chain(10), 4094), 17),
    ]
}

/// Reductions.
fn reductions() -> Vec<Example> {
    let empty = translation(&[], &[], &[]);
    let reduced = |languages: &[Vec<u8>], term: &[u8]| reduction(pack(languages, &[], term));
    let other = [language_k(), production(1, 4, &[2])];
    let without = [0x55, 0x42, 0x40, 0, 0x40, 0];
    let union = [0x55, 0x43, 0x40, 0, 0x40, 1];
    vec![
        accepted("the pack of 71 bytes", reduction(pack_with_sum()), &sum()),
        accepted(
            "the join",
            reduction(pack_with_join()),
            &reduced_with(&language_c(), &[1, 1, 3, 1]),
        ),
        accepted("identity of the empty language", reduced(&[vec![]], &[0x55, 0x40, 0]), &empty),
        accepted("C without C", reduced(&[language_c()], &without), &empty),
        refused("K plus a language with 1.4 (2)", reduced(&other, &union), 12),
        refused("an empty file", reduction(vec![]), 2),
    ]
}

/// The club and a wider strap: reductions, and runs by the join.
fn wider_strap() -> Vec<Example> {
    let joined = reduced_with(&language_w(), &[1, 1, 3, 1]);
    let club = [4, 3, 0, 0xF0];
    let strap = translation(&language_w(), &language_w(), &rest_becomes_row());
    let narrower = translation(&language_w(), &language_c(), &rest_becomes_row());
    let both = |term: &[u8]| reduction(pack(&[language_c(), language_w()], &[], term));
    vec![
        accepted("a wider strap", reduction(pack_with_wider_strap()), &joined),
        ran(
            "a wider strap, the club's highest",
            run_by(&joined, 1, &club, 7),
            &[2, 1, 0, 0xF0, 1, 0, 0xF0],
            3,
        ),
        refused("a wider strap, above the club's", run_by(&joined, 1, &[3, 0, 0xF1], 7), 15),
        ran("600 on the strap itself", run_by(&strap, 1, &[3, 2, 0x58], 3), &[1, 2, 0x58], 1),
        refused("601 on the strap itself", run_by(&strap, 1, &[3, 2, 0x59], 3), 15),
        refused("a strap of 600 into one of 240", Call::CheckTranslation(narrower), 5),
        refused("a strap of 600 joined onto 240", both(&[0x54, 0x55, 0x40, 0, 0x55, 0x40, 1]), 13),
        refused("a sum of 240 and 600", both(&[0x55, 0x43, 0x40, 0, 0x40, 1]), 12),
    ]
}

/// Rates of 100 to 200 in fives: class 3, and production 1.5 (3).
fn rates_in_fives() -> Vec<u8> {
    [stepped_class(3, 100, 200, 5), production(1, 5, &[3])].concat()
}

/// Rates in fives, and minutes whose step of 1 is written.
fn rates() -> Vec<Example> {
    let tree = |value: u8| {
        let (language, tree) = (rates_in_fives(), vec![5, 0, value]);
        Call::CheckTree(TreeCase { language, root: 1, tree })
    };
    let written = [stepped_class(2, 1, 240, 1), language_c()[8..].to_vec()].concat();
    let kept = [mapping(1, 1), mapping(2, 2), language_clauses()].concat();
    let identity = translation(&language_c(), &language_c(), &kept);
    let reduced = |languages: &[Vec<u8>], term: &[u8]| reduction(pack(languages, &[], term));
    let both = [written.clone(), language_c()];
    let (any, fives) = (class(3, 100, 200), stepped_class(3, 100, 200, 5));
    let onto = |outer: &[u8], inner: &[u8]| {
        reduced(&[outer.to_vec(), inner.to_vec()], &[0x54, 0x55, 0x40, 0, 0x55, 0x40, 1])
    };
    vec![
        accepted("rates in fives", Call::CheckLanguage(rates_in_fives()), &[]),
        refused("step 0", Call::CheckLanguage(stepped_class(3, 100, 200, 0)), 2),
        accepted("a rate of 105", tree(105), &[]),
        accepted("a rate of 200", tree(200), &[]),
        refused("a rate of 103", tree(103), 15),
        refused("a rate of 205", tree(205), 15),
        accepted("a step of 1 is not written", reduced(&both, &[0x55, 0x40, 0]), &identity),
        accepted(
            "a sum of both ways to write it",
            reduced(&both, &[0x55, 0x43, 0x40, 0, 0x40, 1]),
            &identity,
        ),
        accepted("fives onto any", onto(&any, &fives), &translation(&fives, &any, &mapping(3, 3))),
        refused("any onto fives", onto(&fives, &any), 13),
    ]
}

/// The clauses of the identity of C.
fn language_clauses() -> Vec<u8> {
    [clause(1, 1, &[1, 1, 3, 1]), clause(1, 2, &[1, 2, 3, 1, 3, 2]), clause(1, 3, &[1, 3, 3, 1])]
        .concat()
}

/// Kind 3 is a list of minutes: the last of them, or one more before the others; production 1.5 (3 1)
/// has a list before a block.
fn language_of_lists() -> Vec<u8> {
    [production(1, 5, &[3, 1]), production(3, 1, &[2]), production(3, 2, &[2, 3])].concat()
}

/// A list becomes rows in its order by number 0, and in reverse by number 1; before a block it is
/// written by 0, and behind it by 1.
fn body_of_lists() -> Vec<u8> {
    [
        [mapping(1, 1), mapping(2, 2), mapping(3, 1), numbered_mapping(3, 1, 1)].concat(),
        clause(1, 5, &[1, 2, 3, 1, 1, 2, 3, 2, 4, 1, 1]),
        clause(3, 1, &[1, 1, 3, 1]),
        numbered_clause(3, 1, 1, &[1, 1, 3, 1]),
        clause(3, 2, &[1, 2, 1, 1, 3, 1, 3, 2]),
        numbered_clause(3, 2, 1, &[1, 2, 4, 2, 1, 1, 1, 3, 1]),
    ]
    .concat()
}

/// C to C: as it is by number 0, and by number 1 with each sequence in the other order.
fn body_backwards() -> Vec<u8> {
    [
        [mapping(1, 1), numbered_mapping(1, 1, 1), mapping(2, 2)].concat(),
        clause(1, 1, &[1, 1, 3, 1]),
        numbered_clause(1, 1, 1, &[1, 1, 3, 1]),
        clause(1, 2, &[1, 2, 3, 1, 3, 2]),
        numbered_clause(1, 2, 1, &[1, 2, 4, 2, 1, 4, 1, 1]),
        clause(1, 3, &[1, 3, 3, 1]),
        numbered_clause(1, 3, 1, &[1, 3, 3, 1]),
    ]
    .concat()
}

/// Lists that are translated twice: by one translation, and by one joined onto it.
fn numbers() -> Vec<Example> {
    let source = [class(2, 1, 240), language_of_lists()].concat();
    let lists = translation(&source, &language_c(), &body_of_lists());
    let list = [2, 0, 5, 2, 0, 10, 1, 0, 15];
    let (forwards, backwards) =
        ([2, 1, 0, 5, 2, 1, 0, 10, 1, 0, 15], [2, 2, 1, 0, 15, 1, 0, 10, 1, 0, 5]);
    let both = |outer: &[u8], inner: &[u8]| {
        let (languages, bodies) =
            ([source.clone(), language_c()], [outer.to_vec(), inner.to_vec()]);
        let term = [0x54, 0x50, 0x40, 1, 0x40, 1, 0, 0x50, 0x40, 0, 0x40, 1, 1];
        reduction(pack(&languages, &bodies, &term))
    };
    let high =
        [&body_backwards()[..5], &numbered_mapping(1, 16, 1), &body_backwards()[11..]].concat();
    let by = |number| run_by_number(&lists, (3, number), &list, 11);
    let join =
        Call::JoinTable(JoinTableCase { translation: lists.clone(), table: vec![], output: 0 });
    vec![
        accepted("lists by number", Call::CheckTranslation(lists.clone()), &[]),
        ran("a list by number 0", by(0), &forwards, 3),
        ran("a list by number 1", by(1), &backwards, 3),
        refused("a list by number 2", by(2), 14),
        refused("a list by number 257", by(257), 14),
        refused("a block by number 1", run_by_number(&lists, (1, 1), &[], 9), 14),
        refused("clauses of number 16 are missing", both(&high, &body_of_lists()), 6),
        refused("a table joined onto lists", join, 26),
        accepted(
            "backwards joined onto lists",
            both(&body_backwards(), &body_of_lists()),
            &joined_lists(&source),
        ),
        ran(
            "a list by number 17 of the join",
            run_by_number(&joined_lists(&source), (3, 17), &list, 11),
            &forwards,
            3,
        ),
    ]
}

/// What the join of both reduces to.
fn joined_lists(source: &[u8]) -> Vec<u8> {
    let row = [1, 1, 3, 1];
    let more = |name: u8, codes: [&[u8]; 4]| {
        let numbered = [1, 16, 17].into_iter().zip(&codes[1..]);
        let numbered = numbered.flat_map(|(number, code)| numbered_clause(3, name, number, code));
        [clause(3, name, codes[0]), numbered.collect()].concat()
    };
    let body = [
        [mapping(1, 1), numbered_mapping(1, 1, 1), mapping(2, 2), mapping(3, 1)].concat(),
        [1, 16, 17].into_iter().flat_map(|number| numbered_mapping(3, number, 1)).collect(),
        clause(1, 5, &[1, 2, 3, 1, 1, 2, 3, 2, 4, 1, 16]),
        numbered_clause(1, 5, 1, &[1, 2, 1, 2, 4, 1, 17, 4, 2, 1, 4, 1, 1]),
        more(1, [&row; 4]),
        more(
            2,
            [
                &[1, 2, 1, 1, 3, 1, 3, 2],
                &[1, 2, 4, 2, 1, 1, 1, 3, 1],
                &[1, 2, 4, 2, 16, 1, 1, 3, 1],
                &[1, 2, 1, 1, 3, 1, 4, 2, 17],
            ],
        ),
    ];
    translation(source, &language_c(), &body.concat())
}

/// Checks of the languages and the translation of the examples.
fn checks() -> Vec<Example> {
    let undefined = production(1, 4, &[2]);
    let tree = |language: &[u8], root, tree: &[u8]| {
        Call::CheckTree(TreeCase { language: language.to_vec(), root, tree: tree.to_vec() })
    };
    vec![
        accepted("C", Call::CheckLanguage(language_c()), &[]),
        accepted("K", Call::CheckLanguage(language_k()), &[]),
        accepted("the sum", Call::CheckTranslation(sum()), &[]),
        accepted("a row of C", tree(&language_c(), 1, &[1, 0, 5]), &[]),
        refused("no end", tree(&language_k(), 1, &[4, 4]), 15),
        refused("an undefined kind", tree(&undefined, 2, &[]), 15),
        refused("a kind that is not in", tree(&undefined, 3, &[]), 14),
    ]
}

/// A sequence of C: a row of 5 minutes, and a rest of 3; and its index.
const SESSION: [u8; 7] = [2, 1, 0, 5, 3, 0, 3];
const SESSION_INDEX: [u8; 20] = [0, 0, 0, 7, 0, 1, 0, 3, 0, 2, 0, 2, 0, 4, 0, 3, 0, 5, 0, 2];

/// Blocks of the sequence, by its index and by others.
fn blocks() -> Vec<Example> {
    let looked_up = |tree: &[u8], index: &[u8], path: &[u8]| {
        let (tree, index, path) = (tree.to_vec(), index.to_vec(), path.to_vec());
        Call::Block(BlockCase { language: language_c(), root: 1, tree, index, path })
    };
    let at = |path: &[u8]| looked_up(&SESSION, &SESSION_INDEX, path);
    let found = |what, path, start, length, kind| {
        answered(what, at(path), Answer { length, start, kind, ..Answer::default() })
    };
    let mut off = SESSION_INDEX;
    off[19] = 3;
    vec![
        found("the whole sequence", &[], 0, 7, 1),
        found("the row", &[1], 1, 3, 1),
        found("the rest", &[2], 4, 3, 1),
        found("the minutes of the rest", &[2, 1], 5, 2, 2),
        refused("number 0", at(&[0]), 21),
        refused("a third block of two", at(&[3]), 21),
        refused("below the minutes", at(&[2, 1, 1]), 21),
        refused("a byte left over", looked_up(&[1, 0, 5, 0], &[], &[0]), 15),
        refused("no index", looked_up(&SESSION, &[], &[0]), 22),
        refused("an index one byte off", looked_up(&SESSION, &off, &[0]), 22),
        refused("a short index", looked_up(&SESSION, &SESSION_INDEX[..16], &[1]), 22),
    ]
}

/// What stands at paths of the sequence.
fn nodes() -> Vec<Example> {
    let looked_up = |tree: &[u8], index: &[u8], path: &[u8]| {
        let (tree, index, path) = (tree.to_vec(), index.to_vec(), path.to_vec());
        Call::Node(BlockCase { language: language_c(), root: 1, tree, index, path })
    };
    let at = |path: &[u8]| looked_up(&SESSION, &SESSION_INDEX, path);
    let found = |what, path, kind, name, arguments| {
        answered(what, at(path), Answer { kind, name, arguments, ..Answer::default() })
    };
    vec![
        found("the whole sequence", &[], 1, 2, 2),
        found("the row", &[1], 1, 1, 1),
        found("the rest", &[2], 1, 3, 1),
        found("the minutes of the rest", &[2, 1], 2, NO_NAME, 0),
        refused("number 0", at(&[0]), 21),
        refused("a third block of two", at(&[3]), 21),
        refused("below the minutes", at(&[2, 1, 1]), 21),
        refused("a byte left over", looked_up(&[1, 0, 5, 0], &[], &[0]), 15),
        refused("no index", looked_up(&SESSION, &[], &[0]), 22),
    ]
}

/// Where sessions of C, and of K, are at fault.
fn located() -> Vec<Example> {
    let (both, undefined) = ([language_c(), language_k()].concat(), production(1, 4, &[2]));
    let by = |language: &[u8], root, tree: &[u8]| {
        Call::Locate(TreeCase { language: language.to_vec(), root, tree: tree.to_vec() })
    };
    let at = |what, tree: &[u8], number, position| {
        answered(what, by(&both, 1, tree), Answer { number, position, ..Answer::default() })
    };
    let gap = Answer { number: 15, position: 1, ..Answer::default() };
    vec![
        at("a row", &[1, 0, 0xF0], 0, 0),
        at("a token above the range", &[1, 0, 0xF1], 15, 1),
        at("a token below the range", &[2, 1, 0, 5, 3, 0, 0], 15, 5),
        at("an unknown name", &[2, 1, 0, 5, 9, 0, 3], 15, 4),
        at("an empty tree", &[], 15, 0),
        at("the end at a name", &[2, 1, 0, 5], 15, 4),
        at("the end in a token", &[2, 1, 0, 5, 3, 0], 15, 6),
        at("a byte left over", &[1, 0, 5, 0], 15, 3),
        at("63 times 04: 64 levels", &chain(63), 0, 0),
        at("64 times 04: 65 levels", &chain(64), 16, 64),
        at("64 times 04, then nothing", &[4; 64], 16, 64),
        refused("root 9", by(&both, 9, &[1, 0, 5]), 14),
        refused("a broken language", by(&[0x12], 1, &[9]), 2),
        answered("an undefined kind", by(&undefined, 1, &[4, 0, 5]), gap),
        refused("an undefined root", by(&undefined, 2, &[4]), 15),
    ]
}

/// Indexes of sessions of C.
fn indexes() -> Vec<Example> {
    let built = |tree: &[u8], output| {
        Call::Index(IndexCase { language: language_c(), root: 1, tree: tree.to_vec(), output })
    };
    vec![
        accepted("a sequence", built(&SESSION, 20), &SESSION_INDEX),
        accepted("a row", built(&[1, 0, 5], 30), &[0, 0, 0, 3, 0, 1, 0, 2]),
        refused("a sequence, one byte short", built(&SESSION, 19), 17),
        refused("a byte left over", built(&[1, 0, 5, 0], 30), 15),
    ]
}

/// An edit that is accepted and gives this plan and this index.
fn edited(what: &str, call: Call, plan: &[u8], index: &[u8]) -> Example {
    let index_length = index.len() as u64;
    let example = accepted(what, call, plan);
    let answer = Answer { index_length, ..example.answer };
    Example { answer, index: index.to_vec(), ..example }
}

/// Edits of the sequence.
fn edits() -> Vec<Example> {
    let by = |path: &[u8], block: &[u8], plan, plan_index| {
        let (tree, index) = (SESSION.to_vec(), SESSION_INDEX.to_vec());
        let (path, block) = (path.to_vec(), block.to_vec());
        let (language, root, card) = (language_c(), 1, card(&[1, 2]));
        Call::Edit(EditCase { language, root, tree, index, path, card, block, plan, plan_index })
    };
    let with_row = [0, 0, 0, 7, 0, 1, 0, 3, 0, 2, 0, 2, 0, 4, 0, 3, 0, 5, 0, 2];
    vec![
        edited(
            "a row for the rest",
            by(&[2], &[1, 0, 9], 7, 20),
            &[2, 1, 0, 5, 1, 0, 9],
            &with_row,
        ),
        edited("8 minutes of rest", by(&[2, 1], &[0, 8], 9, 20), &[2, 1, 0, 5, 3, 0, 8], &with_row),
        edited("a row for all", by(&[], &[1, 0, 9], 7, 20), &[1, 0, 9], &[0, 0, 0, 3, 0, 1, 0, 2]),
        edited("the same rest", by(&[2], &[3, 0, 3], 7, 20), &SESSION, &SESSION_INDEX),
        refused("a plan one byte short", by(&[2], &[1, 0, 9], 6, 20), 17),
        refused("an index one byte short", by(&[2], &[1, 0, 9], 7, 19), 17),
        refused("no such argument", by(&[3], &[1, 0, 9], 7, 20), 21),
        refused("241 minutes", by(&[2], &[1, 0, 241], 7, 20), 15),
        refused("minutes for a block", by(&[2], &[0, 9], 7, 20), 15),
        refused("a byte behind the block", by(&[2], &[1, 0, 9, 0], 9, 20), 15),
        refused("63 more levels, and one more", by(&[2], &[2; 63], 99, 99), 16),
        refused("62 more levels, then nothing", by(&[2], &[2; 62], 99, 99), 15),
    ]
}

/// Masked sessions of C, and edits of the sequence by one who may see only some of it.
fn masks() -> Vec<Example> {
    let by = |card: Vec<u8>, tree: &[u8], output| {
        let (language, tree) = (language_c(), tree.to_vec());
        Call::Mask(MaskCase { language, root: 1, card, tree, output })
    };
    let edit = |kinds: &[u8], path: &[u8]| {
        let (tree, index, card) = (SESSION.to_vec(), SESSION_INDEX.to_vec(), card(kinds));
        let (language, path, block) = (language_c(), path.to_vec(), vec![1, 0, 9]);
        let (root, plan, plan_index) = (1, 7, 20);
        Call::Edit(EditCase { language, root, tree, index, path, card, block, plan, plan_index })
    };
    let hidden = [2, 1, 0xFF, 3, 0xFF];
    vec![
        accepted("all seen", by(card(&[1, 2]), &SESSION, 7), &SESSION),
        accepted("minutes hidden", by(card(&[1]), &SESSION, 5), &hidden),
        accepted("blocks hidden", by(card(&[2]), &SESSION, 1), &[0xFF]),
        accepted("an empty card", by(card(&[]), &SESSION, 9), &[0xFF]),
        refused("minutes hidden, one byte short", by(card(&[1]), &SESSION, 4), 17),
        refused("no card", by(vec![], &SESSION, 9), 2),
        refused("a card with kind 32", by(card(&[1, 32]), &SESSION, 9), 2),
        refused("a card out of order", by(card(&[2, 1]), &SESSION, 9), 3),
        refused("a byte left over", by(card(&[]), &[1, 0, 5, 0], 9), 15),
        refused("an edit of hidden minutes", edit(&[1], &[2, 1]), 25),
        refused("a number below hidden minutes", edit(&[1], &[2, 1, 0]), 25),
        refused("no such argument of a seen block", edit(&[1], &[3]), 21),
        refused("an edit with the root hidden", edit(&[2], &[3]), 25),
    ]
}

/// Searches in the sum for sessions of C: a sequence comes before "twice" in byte order.
fn searches() -> Vec<Example> {
    let by = |root, tree: &[u8], limit, output| {
        let (translation, tree, workspace) = (sum(), tree.to_vec(), 100);
        Call::Search(SearchCase { translation, root, tree, limit, workspace, output })
    };
    let (rows, mixed) = ([2, 1, 0, 5, 1, 0, 5], [2, 1, 0, 5, 3, 0, 5]);
    vec![
        accepted("two equal rows", by(1, &rows, 16, 7), &rows),
        accepted("a row and a rest", by(1, &mixed, 2, 9), &mixed),
        accepted("minutes", by(2, &[0, 5], 1, 2), &[0, 5]),
        refused("two equal rows, one byte short", by(1, &rows, 16, 6), 17),
        refused("two equal rows within one level", by(1, &rows, 1, 7), 23),
        refused("limit 0", by(1, &rows, 0, 7), 24),
        refused("limit 17", by(1, &rows, 17, 7), 24),
        refused("a byte left over, limit 0", by(1, &[1, 0, 5, 0], 0, 7), 15),
        refused("root 9", by(9, &rows, 0, 7), 14),
    ]
}

/// A load table of C: rowing counts twice, a rest takes away.
pub fn loads() -> Vec<u8> {
    [load(1, 1, 0, &[2]), load(1, 2, 0, &[1, 1]), load(1, 3, 0, &[-1])].concat()
}

/// Scores of sessions of C, and its table joined onto the sum.
fn scores() -> Vec<Example> {
    let by = |tree: &[u8], table: Vec<u8>| {
        let (language, tree) = (language_c(), tree.to_vec());
        Call::Score(ScoreCase { language, root: 1, tree, table })
    };
    let scored = |what, tree, score| {
        answered(what, by(tree, loads()), Answer { score, ..Answer::default() })
    };
    let join = |table, output| Call::JoinTable(JoinTableCase { translation: sum(), table, output });
    let joined = [loads(), load(1, 4, 0, &[2])].concat();
    vec![
        scored("a row of 5 and a rest of 3", &[2, 1, 0, 5, 3, 0, 3], 7),
        scored("a rest of 3", &[3, 0, 3], -3),
        scored("a row of 5 and a rest of 10", &[2, 1, 0, 5, 3, 0, 10], 0),
        refused("no table", by(&[3, 0, 3], vec![]), 18),
        refused("a byte left over", by(&[3, 0, 3, 0], loads()), 15),
        accepted("the table joined onto the sum", join(loads(), joined.len()), &joined),
        refused("one byte short", join(loads(), joined.len() - 1), 17),
        refused("a table of the source", join(joined.clone(), 99), 18),
    ]
}

/// Scores of loose sessions of C.
fn loose_scores() -> Vec<Example> {
    let by = |plan: &[u8], table: Vec<u8>| {
        let (language, tree) = (language_c(), plan.to_vec());
        Call::ScoreLoose(ScoreCase { language, root: 1, tree, table })
    };
    let scored =
        |what, plan, ends| answered(what, by(plan, loads()), Answer { ends, ..Answer::default() });
    vec![
        scored("a row of 20 to 30", &[1, 0, 20, 0, 30], [40, 60]),
        scored("a rest of 20 to 30", &[3, 0, 20, 0, 30], [-30, -20]),
        scored(
            "a row of 20 to 30 and a rest of 5 to 10",
            &[2, 1, 0, 20, 0, 30, 3, 0, 5, 0, 10],
            [30, 55],
        ),
        scored("a settled row of 5", &[1, 0, 5, 0, 5], [10, 10]),
        refused("a loose token out of order", by(&[1, 0, 30, 0, 20], loads()), 15),
        refused("a greatest value above the range", by(&[1, 0, 20, 0, 241], loads()), 15),
        refused("a token of one value", by(&[1, 0, 20], loads()), 15),
        refused("no table", by(&[1, 0, 20, 0, 30], vec![]), 18),
    ]
}

/// Sessions of C and its extension as XML, and texts that are none.
fn texts() -> Vec<Example> {
    let language = [language_c(), language_k()].concat();
    let (tree, text) = ([4, 1, 0, 5], b"<x1.4><x1.1><t2>5</t2></x1.1></x1.4>");
    let export = |tree: &[u8], output| {
        let (language, tree) = (language.clone(), tree.to_vec());
        Call::Export(ExportCase { language, root: 1, tree, output })
    };
    let import = |text: &[u8], output| {
        let (language, text) = (language.clone(), text.to_vec());
        Call::Import(ImportCase { language, root: 1, text, output })
    };
    let deep = [&b"<x1.4>".repeat(64)[..], b"<"].concat();
    vec![
        accepted("twice", export(&tree, 36), text),
        refused("twice, one byte short", export(&tree, 35), 17),
        refused("a byte left over", export(&[1, 0, 5, 0], 99), 15),
        accepted("twice", import(text, 4), &tree),
        refused("twice, one byte short", import(text, 3), 17),
        refused("a leading zero", import(b"<x1.1><t2>05</t2></x1.1>", 9), 20),
        refused("a space", import(b"<x1.1><t2>5 </t2></x1.1>", 9), 20),
        refused("another closing tag", import(b"<x1.1><t2>5</t2></x1.3>", 9), 20),
        refused("a token above the range", import(b"<x1.1><t2>241</t2></x1.1>", 9), 20),
        refused("text behind the end", import(&[&text[..], b"\n"].concat(), 9), 20),
        refused("64 times 04: 65 levels", import(&deep, 99), 16),
        refused("63 times 04, then nothing", import(&deep[..6 * 63], 99), 20),
    ]
}

/// All examples.
pub fn examples() -> Vec<Example> {
    let first = [reductions(), accepted_runs(), refused_runs(), wider_strap(), rates(), checks()];
    let sessions = [scores(), loose_scores(), texts(), blocks(), nodes(), located(), indexes()];
    [first.concat(), sessions.concat(), edits(), masks(), searches(), numbers()].concat()
}

impl Example {
    /// The output at the end: the result first, the other bytes as they were.
    fn output(&self) -> Vec<u8> {
        let mut output = self.call.buffers().output;
        output[..self.bytes.len()].copy_from_slice(&self.bytes);
        output
    }

    /// The second output at the end.
    fn index(&self) -> Vec<u8> {
        let mut index = self.call.buffers().index;
        index[..self.index.len()].copy_from_slice(&self.index);
        index
    }

    /// The workspace at the end: all zero, or as it was after an early refusal.
    fn workspace(&self) -> Vec<u8> {
        let kept = match self.call {
            Call::Search(_) => !SEARCHED.contains(&self.answer.number),
            _ => EARLY_REFUSALS.contains(&self.answer.number),
        };
        let byte = if kept { WORKSPACE_MARK } else { 0 };
        vec![byte; self.call.buffers().workspace.len()]
    }

    /// What a call of it shows to be wrong, if anything.
    pub fn wrong(&self, call: impl Fn(&Call, &mut Buffers) -> Answer) -> Option<String> {
        let mut buffers = self.call.buffers();
        let found = call(&self.call, &mut buffers);
        if found != self.answer {
            return Some(format!("{found:?} instead of {:?}", self.answer));
        }
        let Buffers { workspace, output, index } = buffers;
        let kept = workspace == self.workspace() && output == self.output();
        (!kept || index != self.index()).then(|| "output or workspace are wrong".to_string())
    }
}
