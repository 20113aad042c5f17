//! Numbers of kinds: which ones a translation has besides 0, and the kinds that they map to.

use super::heights::Heights;
use super::random::Random;
use crate::body::{Body, Clause, Numbered, CLAUSE_TAG, MAPPING_TAG, NUMBERED_MAPPING_TAG};
use crate::code::{symbols, Symbol};
use crate::field::{Field, Fields};
use crate::files::{clause, field, mapping, numbered_clause, numbered_mapping};
use crate::language::{bit, Language, KINDS};
use crate::pack::BODY_TAG;
use crate::translation::Translation;
use std::collections::BTreeMap;

/// Numbers up to this can be paired in a join.
const PAIRED: u8 = 15;

/// A use of an argument in a code, and the kind that it has there.
#[derive(Clone, Copy, Debug, PartialEq, Eq)]
pub struct Use {
    pub symbol: Symbol,
    pub kind: u8,
}

/// The uses that a code may make of the arguments of these kinds.
pub fn uses_of(body: &Body, arguments: &[u8]) -> Vec<Use> {
    let of = |(argument, &kind): (usize, &u8)| {
        let by =
            move |(number, kind)| Use { symbol: Symbol::Argument(argument as u8, number), kind };
        body.numbers(kind).map(by)
    };
    arguments.iter().enumerate().flat_map(of).collect()
}

/// Numbers that are taken for the kinds of one translation: mostly few and such as can be paired.
fn palette(random: &mut Random) -> Vec<u8> {
    let low = [1, 1, 2, 3, 7, 14, PAIRED, PAIRED];
    let high = [1, PAIRED, 16, 17, 128, 255, 255];
    let count = random.pick(&[1, 1, 2, 3]);
    let high_ones = random.percent(15);
    (0..count).map(|_| if high_ones { random.pick(&high) } else { random.pick(&low) }).collect()
}

/// The kinds of the target that a kind of the source may be mapped to, given what 0 maps it to.
fn targets(source: &Language, target: &Language, kind: u8, first: u8) -> Vec<u8> {
    if let Some(class) = source.classes.iter().find(|class| class.kind == kind) {
        let wider = target.classes.iter().filter(|wider| wider.contains(class));
        return wider.map(|wider| wider.kind).collect();
    }
    let heights = Heights::new(target);
    let grown = (0..KINDS as u8).filter(|&kind| heights.least(kind).is_some());
    grown.chain([first, first]).collect()
}

/// Mappings of some kinds by other numbers than 0, for a mapping of all kinds by 0; often none.
pub fn other_numbers(
    random: &mut Random,
    source: &Language,
    target: &Language,
    zero: &[u8; KINDS],
) -> Vec<Numbered> {
    if random.percent(60) {
        return vec![];
    }
    let (numbers, share) = (palette(random), random.pick(&[30, 60, 100]));
    let mut table = BTreeMap::new();
    let kinds = (0..KINDS as u8).filter(|&kind| source.kinds() & bit(kind) != 0);
    for kind in kinds.filter(|_| random.percent(share)).collect::<Vec<_>>() {
        let targets = targets(source, target, kind, zero[kind as usize]);
        for &number in numbers.iter().filter(|_| !targets.is_empty()) {
            let target = random.pick(&targets);
            table.insert((kind, number), Numbered { kind, number, target });
        }
    }
    table.into_values().collect()
}

/// The mappings of the kinds in a language.
pub fn cut_others(source: &Language, others: &[Numbered]) -> Vec<Numbered> {
    let kinds = source.kinds();
    others.iter().copied().filter(|other| kinds & bit(other.kind) != 0).collect()
}

/// The body without the mapping of a kind by a number, and without its clauses.
fn without_number(body: &Body, gone: &Numbered) -> Body {
    let stays =
        |clause: &Clause| clause.number != gone.number || clause.key.to_be_bytes()[0] != gone.kind;
    let clauses = body.clauses.iter().filter(stays).collect();
    let others = body.others.iter().copied().filter(|other| other != gone).collect();
    Body { mapping: body.mapping, others, clauses }
}

/// The body with one more number for a kind, with the same clauses as another number of it.
fn with_number(body: &Body, kind: u8, like: u8, number: u8) -> Option<Body> {
    let target = body.mapped(kind, like)?;
    let mut others = body.others.clone();
    let place =
        others.partition_point(|other| other.key() < Numbered { kind, number, target }.key());
    others.insert(place, Numbered { kind, number, target });
    let own = body.clauses.iter();
    let more = body
        .clauses
        .iter()
        .filter(|clause| clause.key.to_be_bytes()[0] == kind && clause.number == like);
    let mut list: Vec<Clause> = own.chain(more.map(|clause| Clause { number, ..clause })).collect();
    list.sort_by_key(Clause::place);
    Some(Body { mapping: body.mapping, others, clauses: list.into_iter().collect() })
}

/// The translation with a number more or less for one kind, or a number mapped elsewhere, if that is
/// well formed.
pub fn with_changed_numbers(random: &mut Random, translation: &Translation) -> Option<Translation> {
    let Translation { source, target, body } = translation;
    let (kind, number) = (random.below(KINDS) as u8, random.pick(&[1, 2, PAIRED, PAIRED, 16, 255]));
    let one = (!body.others.is_empty()).then(|| body.others[random.below(body.others.len())]);
    let changed = match (random.below(3), one) {
        (0, Some(one)) => without_number(body, &one),
        (1, Some(one)) => {
            let mut changed = body.clone();
            let place = body.others.iter().position(|other| *other == one)?;
            changed.others[place].target = random.below(KINDS) as u8;
            changed
        }
        _ if body.mapped(kind, number).is_some() => return None,
        _ => with_number(body, kind, 0, number)?,
    };
    let value = Translation { source: source.clone(), target: target.clone(), body: changed };
    value.check_well_formed().is_ok().then_some(value)
}

/// A number for a run from a root: mostly one that the root has.
pub fn root_number(random: &mut Random, translation: &Translation, root: u32) -> u32 {
    let kind = u8::try_from(root).ok().filter(|&kind| usize::from(kind) < KINDS);
    let numbers = kind.map_or(vec![], |kind| translation.body.numbers(kind).collect());
    if numbers.is_empty() || random.percent(4) {
        return random.pick(&[0, 1, 2, 15, 16, 255, 256, 257, 65_536, 1 << 31, u32::MAX]);
    }
    u32::from(random.pick(&numbers).0)
}

/// Makes the mappings or clauses of other numbers than 0 likely wrong.
pub fn wrong_numbers(random: &mut Random, translation: &mut Translation) {
    let kinds = translation.source.kinds();
    let numbered = Numbered {
        kind: random.below(KINDS) as u8,
        number: random.pick(&[1, 2, PAIRED, 16, 255]),
        target: random.below(KINDS) as u8,
    };
    let body = &mut translation.body;
    let some = (!body.others.is_empty()).then(|| random.below(body.others.len()));
    match (random.below(6), some) {
        (0, Some(place)) => body.others[place].target = random.below(KINDS) as u8,
        (1, Some(place)) => drop(body.others.remove(place)),
        (2, Some(place)) => {
            let Numbered { kind, number, .. } = body.others[place];
            let stays =
                |clause: &Clause| clause.number != number || clause.key.to_be_bytes()[0] != kind;
            body.clauses = body.clauses.iter().filter(stays).collect();
        }
        (3, _) if kinds & bit(numbered.kind) != 0 => {
            *body = with_number(body, numbered.kind, 0, numbered.number).unwrap_or_default();
        }
        (4, _) => renumber(random, body),
        _ => {
            let place = body.others.partition_point(|other| other.key() < numbered.key());
            body.others.insert(place, numbered);
        }
    }
}

/// Gives one clause another number.
fn renumber(random: &mut Random, body: &mut Body) {
    if body.clauses.len() == 0 {
        return;
    }
    let (chosen, number) = (random.below(body.clauses.len()), random.pick(&[0, 1, 2, 16, 255]));
    let clauses = body.clauses.iter().enumerate();
    let mut list: Vec<Clause> = clauses
        .map(|(place, clause)| if place == chosen { Clause { number, ..clause } } else { clause })
        .collect();
    list.sort_by_key(Clause::place);
    body.clauses = list.into_iter().collect();
}

/// Whether a translation or a pack, as far as its fields are whole, has a mapping of another number
/// than 0.
pub fn has_numbers(file: &[u8]) -> bool {
    let mut fields = Fields::new(file).map_while(Result::ok);
    fields.any(|field| match field.tag {
        NUMBERED_MAPPING_TAG => true,
        BODY_TAG => has_numbers(field.contents),
        _ => false,
    })
}

/// A code with its arguments used by another number.
fn used_by(code: &[u8], number: u8) -> Vec<u8> {
    let mut output = Vec::new();
    for symbol in symbols(code) {
        match symbol {
            Symbol::Argument(argument, _) => Symbol::Argument(argument, number).put(&mut output),
            symbol => symbol.put(&mut output),
        }
    }
    output
}

/// A body, or a translation, of number 0 alone with a second number for each kind: its clauses are the
/// same, and in those of each number arguments are used by the one given for it.
fn with_second(file: &[u8], number: u8, [by_first, by_second]: [u8; 2]) -> Vec<u8> {
    let twin = |Field { tag, contents }: Field| match (tag, contents) {
        (MAPPING_TAG, &[kind, target]) => {
            [mapping(kind, target), numbered_mapping(kind, number, target)].concat()
        }
        (CLAUSE_TAG, &[result, name, ref code @ ..]) => [
            clause(result, name, &used_by(code, by_first)),
            numbered_clause(result, name, number, &used_by(code, by_second)),
        ]
        .concat(),
        _ => field(tag, contents),
    };
    Fields::new(file).map_while(Result::ok).flat_map(twin).collect()
}

/// A body, or a translation, with a second number that does the same as 0.
pub fn with_twin(file: &[u8], number: u8) -> Vec<u8> {
    with_second(file, number, [0, number])
}

/// The same, where the clauses of each number use arguments by the other.
pub fn with_turns(file: &[u8], number: u8) -> Vec<u8> {
    with_second(file, number, [number, 0])
}

#[cfg(test)]
mod tests {
    use super::*;
    use crate::examples::{pack_with_sum, sum};
    use crate::generate::{law_pack, translation_file};
    use crate::translation::read_translation;
    use crate::{check_translation, run};

    #[test]
    fn a_second_number_does_the_same() {
        for value in [with_twin(&sum(), 9), with_turns(&sum(), 9)] {
            assert_eq!(check_translation(&value).number(), 0);
            for number in [0, 9] {
                let mut output = [0; 7];
                let outcome = run(&value, 1, number, &[4, 1, 0, 5], &mut output);
                assert_eq!((outcome.length(), output), (7, [2, 1, 0, 5, 1, 0, 5]));
            }
            assert!(has_numbers(&value));
        }
        assert!(!has_numbers(&sum()) && !has_numbers(&pack_with_sum()));
    }

    #[test]
    fn many_files_have_numbers_low_and_high() {
        let mut random = Random::new(13);
        let (mut plain, mut low, mut high, mut packs) = (0, 0, 0, 0);
        for _ in 0..3000 {
            if let Ok(value) = read_translation(&translation_file(&mut random)) {
                let highest = value.body.others.iter().map(|other| other.number).max();
                plain += usize::from(highest.is_none());
                low += usize::from(highest.is_some_and(|number| number <= PAIRED));
                high += usize::from(highest.is_some_and(|number| number > PAIRED));
            }
            let pack = law_pack(&mut random);
            packs += usize::from(has_numbers(&super::super::pack_with_term(&pack, &[])));
        }
        assert!(plain > 300 && low > 100 && high > 30, "{plain} {low} {high}");
        assert!((800..2200).contains(&packs), "{packs}");
    }
}
