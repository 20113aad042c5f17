//! The law of runs, the law of sums and four laws of joins and identities, for the operations of any
//! implementation.

pub mod edits;
pub mod loose;
pub mod masks;
pub mod search;

use crate::generate::{law_body, law_language, legal_tree, pack_with_term, LawPack, Random};
use crate::translation::{read_translation, Translation};
use crate::tree::is_legal_tree;

/// An answer with that many first bytes of its output.
#[derive(Clone, Debug, PartialEq, Eq)]
pub struct Answer {
    pub number: u32,
    pub length: u64,
    bytes: Vec<u8>,
}

/// Reduces a pack; workspace and output are equally long each time.
pub type Reduce = dyn Fn(&[u8]) -> Answer;

/// Runs a translation from a root, by a number, on a tree, with an output of so many bytes.
pub type Run = dyn Fn(&[u8], u32, u32, &[u8], usize) -> Answer;

/// The operations that the laws speak of.
pub struct Operations<'a> {
    pub reduce: &'a Reduce,
    pub run: &'a Run,
}

/// What a law said of a pack: one of these for each time that its premises held.
#[derive(Clone, Copy, Debug, PartialEq, Eq)]
pub enum Said {
    /// Two sums were accepted and equal.
    SumsAccepted,
    /// Two sums were refused.
    SumsRefused,
    /// A join and both its operands were accepted.
    Join,
    /// Two runs and the run of their join were accepted and equal.
    Runs,
    /// The second run and the run of the join were both too long for the output.
    LongRuns,
    /// Two runs and the run of their join, by numbers that are not both 0, were accepted and equal.
    NumberedRuns,
    /// Two sums with other numbers than 0 were accepted and equal.
    NumberedSums,
    /// A join after a sum was accepted, and so was the sum of the joins.
    JoinedSums,
    /// The same with other numbers than 0.
    NumberedJoinedSums,
    /// A join without a language was accepted, and so was the join whose second operand was without it.
    JoinsWithout,
    /// The same with other numbers than 0.
    NumberedJoinsWithout,
    /// The identity of a sum and the sum of the identities were accepted and equal.
    IdentitiesAccepted,
    /// The identity of a sum and the sum of the identities were refused.
    IdentitiesRefused,
    /// Two groupings of three joins were accepted and equal.
    RegroupedJoins,
}

/// What stands for each thing said, in the order of `Said`.
pub const SAID: [&str; 14] = [
    "sums accepted",
    "sums refused",
    "joins accepted",
    "runs accepted",
    "runs too long",
    "runs by other numbers than 0 accepted",
    "sums with other numbers than 0 accepted",
    "joins after a sum accepted",
    "joins after a sum with other numbers than 0 accepted",
    "joins without a language accepted",
    "joins without a language with other numbers than 0 accepted",
    "identities of sums accepted",
    "identities of sums refused",
    "regrouped joins accepted",
];

/// How a law was broken, and the inputs with which it was.
#[derive(Debug)]
pub struct Broken {
    pub what: String,
    pub inputs: Vec<(&'static str, Vec<u8>)>,
}

/// The output of a run that is to hold every result but a very long one.
const ROOM: usize = 20_000;

/// The signs of which the laws speak.
const LANGUAGE_SUM: u8 = 0x43;
const WITHOUT: u8 = 0x52;
const SUM: u8 = 0x53;
const JOIN: u8 = 0x54;
const IDENTITY: u8 = 0x55;

/// So many trees are run through each join.
const TREES: usize = 3;

impl Answer {
    /// The answer with the output, of which the first bytes are kept.
    pub fn new(number: u32, length: u64, mut output: Vec<u8>) -> Answer {
        output.truncate(usize::try_from(length).unwrap_or(usize::MAX));
        Answer { number, length, bytes: output }
    }

    /// Whether the result is a translation with other numbers than 0.
    fn is_numbered(&self) -> bool {
        read_translation(&self.bytes).is_ok_and(|value| !value.body.is_plain())
    }

    /// Number and length as text.
    fn text(&self) -> String {
        format!("number {} length {}", self.number, self.length)
    }
}

/// A sum over the terms: each used once or more, in some order and grouping.
fn sum_over(random: &mut Random, terms: &[Vec<u8>]) -> Vec<u8> {
    let mut parts: Vec<Vec<u8>> = terms.to_vec();
    for _ in 0..random.below(3) {
        parts.push(terms[random.below(terms.len())].clone());
    }
    while parts.len() > 1 {
        let left = parts.swap_remove(random.below(parts.len()));
        let right = parts.swap_remove(random.below(parts.len()));
        parts.push(sign(SUM, &[&left, &right]));
    }
    parts.remove(0)
}

/// The law of sums for two sums over the terms of the pack.
pub fn law_of_sums(
    operations: &Operations,
    random: &mut Random,
    pack: &LawPack,
) -> Result<Said, Broken> {
    let (left, right) = (sum_over(random, &pack.terms), sum_over(random, &pack.terms));
    let both = Both::new(operations, pack, [&left, &right]);
    both.expect("law of sums", both.accepted_together() && both.equal())?;
    Ok(match both.one.number {
        0 if both.one.is_numbered() => Said::NumberedSums,
        0 => Said::SumsAccepted,
        _ => Said::SumsRefused,
    })
}

/// Two terms as field 32 of one pack, and what the packs reduce to.
struct Both {
    packs: [Vec<u8>; 2],
    one: Answer,
    other: Answer,
}

impl Both {
    /// Reduces the pack with each of the terms.
    fn new(operations: &Operations, pack: &LawPack, terms: [&[u8]; 2]) -> Both {
        let packs = terms.map(|term| pack_with_term(pack, term));
        let [one, other] = packs.each_ref().map(|pack| (operations.reduce)(pack));
        Both { packs, one, other }
    }

    /// Whether both are accepted or both refused.
    fn accepted_together(&self) -> bool {
        (self.one.number == 0) == (self.other.number == 0)
    }

    /// Whether lengths and bytes are equal.
    fn equal(&self) -> bool {
        (self.one.length, &self.one.bytes) == (self.other.length, &self.other.bytes)
    }

    /// The law as it was broken, unless it holds.
    fn expect(&self, law: &str, holds: bool) -> Result<(), Broken> {
        if holds {
            return Ok(());
        }
        let what = format!("{law}: one {}, other {}", self.one.text(), self.other.text());
        let [one, other] = self.packs.clone();
        let inputs = vec![
            ("one pack", one),
            ("other pack", other),
            ("one", self.one.bytes.clone()),
            ("other", self.other.bytes.clone()),
        ];
        Err(Broken { what, inputs })
    }
}

/// A sign before terms.
fn sign(sign: u8, operands: &[&[u8]]) -> Vec<u8> {
    [&[sign], operands.concat().as_slice()].concat()
}

/// A term of the pack, or the term of one of its bodies.
fn operand(random: &mut Random, pack: &LawPack) -> Vec<u8> {
    if random.percent(50) {
        return law_body(random, pack);
    }
    pack.terms[random.below(pack.terms.len())].clone()
}

/// If joining f after the sum of g and h is accepted, so is the sum of the two joins, with equal bytes.
pub fn law_of_joined_sums(
    operations: &Operations,
    random: &mut Random,
    pack: &LawPack,
) -> Result<Option<Said>, Broken> {
    let [f, g, h] = [(); 3].map(|()| operand(random, pack));
    let one = sign(JOIN, &[&f, &sign(SUM, &[&g, &h])]);
    let other = sign(SUM, &[&sign(JOIN, &[&f, &g]), &sign(JOIN, &[&f, &h])]);
    let both = Both::new(operations, pack, [&one, &other]);
    if both.one.number != 0 {
        return Ok(None);
    }
    both.expect("law of joined sums", both.accepted_together() && both.equal())?;
    let numbered = both.one.is_numbered();
    Ok(Some(if numbered { Said::NumberedJoinedSums } else { Said::JoinedSums }))
}

/// If a join without a language is accepted, so is the join whose second operand had it removed, with
/// equal bytes.
pub fn law_of_joins_without(
    operations: &Operations,
    random: &mut Random,
    pack: &LawPack,
) -> Result<Option<Said>, Broken> {
    let [f, g] = [(); 2].map(|()| operand(random, pack));
    let language = law_language(random, pack);
    let one = sign(WITHOUT, &[&sign(JOIN, &[&f, &g]), &language]);
    let other = sign(JOIN, &[&f, &sign(WITHOUT, &[&g, &language])]);
    let both = Both::new(operations, pack, [&one, &other]);
    if both.one.number != 0 {
        return Ok(None);
    }
    both.expect("law of joins without", both.accepted_together() && both.equal())?;
    let numbered = both.one.is_numbered();
    Ok(Some(if numbered { Said::NumberedJoinsWithout } else { Said::JoinsWithout }))
}

/// The identity of a sum of languages and the sum of their identities are accepted together and equal.
pub fn law_of_identities(
    operations: &Operations,
    random: &mut Random,
    pack: &LawPack,
) -> Result<Said, Broken> {
    let [one, other] = [(); 2].map(|()| law_language(random, pack));
    let of_sum = sign(IDENTITY, &[&sign(LANGUAGE_SUM, &[&one, &other])]);
    let sum = sign(SUM, &[&sign(IDENTITY, &[&one]), &sign(IDENTITY, &[&other])]);
    let both = Both::new(operations, pack, [&of_sum, &sum]);
    both.expect("law of identities", both.accepted_together() && both.equal())?;
    let accepted = both.one.number == 0;
    Ok(if accepted { Said::IdentitiesAccepted } else { Said::IdentitiesRefused })
}

/// Two groupings of three joins, where both are accepted, are equal.
pub fn law_of_regrouped_joins(
    operations: &Operations,
    random: &mut Random,
    pack: &LawPack,
) -> Result<Option<Said>, Broken> {
    let [f, g, h] = [(); 3].map(|()| operand(random, pack));
    let one = sign(JOIN, &[&sign(JOIN, &[&f, &g]), &h]);
    let other = sign(JOIN, &[&f, &sign(JOIN, &[&g, &h])]);
    let both = Both::new(operations, pack, [&one, &other]);
    if (both.one.number, both.other.number) != (0, 0) {
        return Ok(None);
    }
    both.expect("law of regrouped joins", both.equal())?;
    Ok(Some(Said::RegroupedJoins))
}

/// What the four laws of joins and identities say of a pack.
pub fn laws_of_joins(
    operations: &Operations,
    random: &mut Random,
    pack: &LawPack,
) -> Result<Vec<Said>, Broken> {
    let said = [
        law_of_joined_sums(operations, random, pack)?,
        law_of_joins_without(operations, random, pack)?,
        Some(law_of_identities(operations, random, pack)?),
        law_of_regrouped_joins(operations, random, pack)?,
    ];
    Ok(said.into_iter().flatten().collect())
}

/// A pack, what it reduces to, and the same decoded.
struct Reduced {
    pack: Vec<u8>,
    bytes: Vec<u8>,
    decoded: Translation,
}

/// A join that is accepted, and its operands by the order of their runs.
struct Join {
    join: Reduced,
    first: Reduced,
    second: Reduced,
}

/// Reduces the pack with a term alone as its field 32; `None` if it is refused.
fn reduced(
    operations: &Operations,
    pack: &LawPack,
    term: &[u8],
) -> Result<Option<Reduced>, Broken> {
    let pack = pack_with_term(pack, term);
    let answer = (operations.reduce)(&pack);
    if answer.number != 0 {
        return Ok(None);
    }
    match read_translation(&answer.bytes) {
        Ok(decoded) => Ok(Some(Reduced { pack, bytes: answer.bytes, decoded })),
        Err(reason) => {
            let what = format!("law of runs: the value is no translation ({reason:?})");
            Err(Broken { what, inputs: vec![("pack", pack), ("value", answer.bytes)] })
        }
    }
}

/// Reduces a join of two terms of the pack, and each alone; `None` if one is refused.
fn reduced_join(
    operations: &Operations,
    random: &mut Random,
    pack: &LawPack,
) -> Result<Option<Join>, Broken> {
    let outer = &pack.terms[random.below(pack.terms.len())];
    let inner = &pack.terms[random.below(pack.terms.len())];
    let join = reduced(operations, pack, &sign(JOIN, &[outer, inner]))?;
    let (second, first) = (reduced(operations, pack, outer)?, reduced(operations, pack, inner)?);
    let (Some(join), Some(first), Some(second)) = (join, first, second) else {
        return Ok(None);
    };
    Ok(Some(Join { join, first, second }))
}

/// The law of runs for a join of two terms of the pack, on a few trees.
pub fn law_of_runs(
    operations: &Operations,
    random: &mut Random,
    pack: &LawPack,
) -> Result<Vec<Said>, Broken> {
    let Some(join) = reduced_join(operations, random, pack)? else {
        return Ok(vec![]);
    };
    let mut said = vec![Said::Join];
    for _ in 0..TREES {
        if let Some((root, tree)) = legal_tree(random, &join.first.decoded.source) {
            let numbers = join.numbers(random, root);
            join.compare_runs(operations, Start { root, numbers, tree: &tree }, &mut said)?;
        }
    }
    Ok(said)
}

/// A tree of a root kind, and the numbers by which the first run and the second are made.
#[derive(Clone, Copy)]
struct Start<'a> {
    root: u8,
    numbers: [u8; 2],
    tree: &'a [u8],
}

impl Start<'_> {
    /// The number of the join's run.
    fn joined_number(&self) -> u8 {
        let [first, second] = self.numbers;
        16 * first + second
    }
}

impl Join {
    /// A number of the root for the first run, and one for the second of the kind that it maps to.
    fn numbers(&self, random: &mut Random, root: u8) -> [u8; 2] {
        let firsts: Vec<(u8, u8)> = self.first.decoded.body.numbers(root).collect();
        let (first, kind) = random.pick(&firsts);
        let seconds: Vec<(u8, u8)> = self.second.decoded.body.numbers(kind).collect();
        [first, random.pick(&seconds).0]
    }

    /// Runs the operands one after the other, and the join, with outputs of a few lengths.
    fn compare_runs(
        &self,
        operations: &Operations,
        start: Start,
        said: &mut Vec<Said>,
    ) -> Result<(), Broken> {
        let (root, [first, second], tree) = (u32::from(start.root), start.numbers, start.tree);
        let middle = (operations.run)(&self.first.bytes, root, first.into(), tree, ROOM);
        if middle.number != 0 {
            return Ok(());
        }
        let (kind, joined) =
            (self.first.decoded.body.mapped(start.root, first), start.joined_number());
        let kind = u32::from(kind.expect("a number of the root"));
        let run = |output: usize| {
            let bytes = &middle.bytes;
            let second = (operations.run)(&self.second.bytes, kind, second.into(), bytes, output);
            let join = (operations.run)(&self.join.bytes, root, joined.into(), tree, output);
            self.compare(start, &second, &join)
                .map_err(|fault| self.broken(fault, start, output, [&second, &join]))
                .map(|what| (what, second.length as usize))
        };
        let (what, length) = run(ROOM)?;
        said.extend(what);
        if matches!(what, Some(Said::Runs | Said::NumberedRuns)) {
            said.extend(run(length)?.0);
            said.extend(run(length.saturating_sub(1))?.0);
        }
        Ok(())
    }

    /// What the law says of the second run and the join's, or how it is broken.
    fn compare(
        &self,
        start: Start,
        second: &Answer,
        join: &Answer,
    ) -> Result<Option<Said>, &'static str> {
        if second.number == 16 {
            return Ok(None);
        }
        if second != join {
            return Err("the answers differ");
        }
        if second.number == 17 {
            return Ok(Some(Said::LongRuns));
        }
        if second.number != 0 {
            return Err("the tree between the runs is refused");
        }
        let whole = &self.join.decoded;
        if whole.source != self.first.decoded.source {
            return Err("the join has another source");
        }
        let kind = whole.body.mapped(start.root, start.joined_number());
        match kind.is_some_and(|kind| is_legal_tree(&whole.target, kind, &join.bytes)) {
            true if start.numbers == [0, 0] => Ok(Some(Said::Runs)),
            true => Ok(Some(Said::NumberedRuns)),
            false => Err("the result is no legal tree"),
        }
    }

    /// The law as it was broken by the answers of the second run and of the join's.
    fn broken(
        &self,
        fault: &str,
        Start { root, numbers, tree }: Start,
        output: usize,
        [second, join]: [&Answer; 2],
    ) -> Broken {
        let answers = format!("second run {}, join's run {}", second.text(), join.text());
        let what = format!(
            "law of runs: {fault}: {answers}, root {root}, numbers {numbers:?}, output length {output}"
        );
        let inputs = vec![
            ("pack of the join", self.join.pack.clone()),
            ("pack of the first run", self.first.pack.clone()),
            ("pack of the second run", self.second.pack.clone()),
            ("join", self.join.bytes.clone()),
            ("first", self.first.bytes.clone()),
            ("second", self.second.bytes.clone()),
            ("tree", tree.to_vec()),
            ("output of the second run", second.bytes.clone()),
            ("output of the join's run", join.bytes.clone()),
        ];
        Broken { what, inputs }
    }
}
