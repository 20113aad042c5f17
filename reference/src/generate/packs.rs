//! Packs: ones that reduce, ones that end in each refusal, and damaged ones.

use super::damage::{damage, damage_bytes, damage_fields};
use super::languages::{encoded, full_language, full_language_file, language};
use super::numbers::{cut_others, with_changed_numbers};
use super::random::Random;
use super::ranges::{around, inside, related, with_one_range, with_ranges};
use super::terms::{deepened, Names, TermWriter};
use super::translations::{
    chain_code, chain_code_with_end, counting_language, counting_translation, counting_with_class,
    counting_with_tokens, cut_mapping, endomorphism, full_numbers, full_translation,
    full_translation_by, single_translation, translation_file, wrong_body,
};
use super::written::{full_with_steps, write_steps, write_steps_within};
use crate::body::{Body, Clause};
use crate::field::{put_header, Fields};
use crate::language::{bit, Class, Language, Production, ARGUMENTS, KINDS, LANGUAGE_LIMIT};
use crate::pack::{BODY_TAG, LANGUAGE_TAG, PACK_LIMIT, TERM_TAG};
use crate::reduce::{OUTPUT_LEAST, WORKSPACE_LEAST};
use crate::term::TERM_LEVELS;
use crate::translation::{Translation, TRANSLATION_LIMIT};

/// The input of a reduction.
#[derive(Clone, Debug)]
pub struct ReduceCase {
    pub pack: Vec<u8>,
    pub workspace: usize,
    pub output: usize,
}

/// Languages and bodies as bytes, and what a term may name of them.
#[derive(Clone, Debug, Default)]
struct Constants {
    languages: Vec<Vec<u8>>,
    bodies: Vec<Vec<u8>>,
    triples: Vec<(u8, u8, u8)>,
}

impl Constants {
    /// Adds a language and gives its number.
    fn language(&mut self, language: &Language) -> u8 {
        self.languages.push(encoded(language));
        self.languages.len() as u8 - 1
    }

    /// Adds a body for two languages and gives its number.
    fn body(&mut self, source: u8, target: u8, body: &Body) -> u8 {
        let mut bytes = Vec::new();
        body.encode(&mut bytes);
        self.bodies.push(bytes);
        let number = self.bodies.len() as u8 - 1;
        self.triples.push((source, target, number));
        number
    }

    /// Adds a translation whole and gives the term for it.
    fn translation(&mut self, translation: &Translation) -> Vec<u8> {
        let source = self.language(&translation.source);
        let target = self.language(&translation.target);
        let body = self.body(source, target, &translation.body);
        vec![0x50, 0x40, source, 0x40, target, body]
    }

    /// The pack with a term.
    fn pack(&self, term: &[u8]) -> Vec<u8> {
        let languages = self.languages.iter().map(|bytes| (LANGUAGE_TAG, bytes.as_slice()));
        let bodies = self.bodies.iter().map(|bytes| (BODY_TAG, bytes.as_slice()));
        let mut pack = Vec::new();
        for (tag, contents) in languages.chain(bodies).chain([(TERM_TAG, term)]) {
            put_header(&mut pack, tag, contents.len());
            pack.extend_from_slice(contents);
        }
        pack
    }

    /// The pack with a term; some steps of 1 are written.
    fn pack_with_steps(&self, random: &mut Random, term: &[u8]) -> Vec<u8> {
        let mut pack = self.pack(term);
        write_steps_within(random, &mut pack);
        pack
    }

    /// What a term may name.
    fn names(&self) -> Names<'_> {
        let (languages, bodies) = (self.languages.len(), self.bodies.len());
        Names { languages, triples: &self.triples, bodies }
    }
}

/// A part of a language: each entry is kept or not.
fn part_of(random: &mut Random, language: &Language) -> Language {
    let mut part = language.clone();
    part.classes.retain(|_| random.percent(80));
    part.productions.retain(|_| random.percent(60));
    part
}

/// The translation cut to a part of its source.
fn cut(whole: &Translation, source: Language) -> Translation {
    let has = |clause: &Clause| {
        source.productions.iter().any(|production| production.key() == clause.key)
    };
    let clauses = whole.body.clauses.iter().filter(has).collect();
    let mapping = cut_mapping(&source, |kind| whole.mapped(kind));
    let others = cut_others(&source, &whole.body.others);
    Translation { source, target: whole.target.clone(), body: Body { mapping, others, clauses } }
}

/// Constants of which many fit: a language, parts of it, and a translation cut to the parts.
fn fitting_constants(random: &mut Random) -> Constants {
    let mut constants = Constants::default();
    let base = language(random);
    let whole = endomorphism(random, &base);
    let target = constants.language(&whole.target);
    let source = constants.language(&whole.source);
    constants.body(source, target, &whole.body);
    for _ in 0..random.within(1..=3) {
        let part = cut(&whole, part_of(random, &whole.source));
        let source = constants.language(&part.source);
        constants.body(source, target, &part.body);
    }
    if random.percent(25) {
        let other = endomorphism(random, &base);
        let source = constants.language(&other.source);
        constants.body(source, target, &other.body);
    }
    if random.percent(25) {
        add_wider(random, &mut constants, &whole);
    }
    if random.percent(10) {
        constants.language(&language(random));
    }
    constants
}

/// Adds the translation into a wider target, from its own source and from a wider one.
fn add_wider(random: &mut Random, constants: &mut Constants, whole: &Translation) {
    let source = with_ranges(random, &whole.source, around);
    let ranges = Language { classes: source.classes.clone(), ..whole.target.clone() };
    let target = with_ranges(random, &ranges, around);
    let target = constants.language(&target);
    for source in [&whole.source, &source] {
        let source = constants.language(source);
        constants.body(source, target, &whole.body);
    }
}

/// A pack over fitting constants with a random term.
fn random_pack(random: &mut Random) -> Vec<u8> {
    let constants = fitting_constants(random);
    let names = constants.names();
    let mut writer = TermWriter::new(&names);
    let mut term = Vec::new();
    let levels = random.pick(&[2, 3, 3, 4, 4, 5, 6]);
    writer.translation(random, levels, &mut term);
    if random.percent(8) {
        damage_bytes(random, &mut term);
    }
    constants.pack(&term)
}

/// A pack whose term uses a variable behind the let that binds it, or under another let.
fn scoped_pack(random: &mut Random) -> Vec<u8> {
    let constants = fitting_constants(random);
    let mut constant = || [0x40, random.below(constants.languages.len()) as u8];
    let (one, other) = (constant(), constant());
    let variable = random.pick(&[0, 1, 14, 15]);
    let used = if random.percent(70) { variable } else { random.pick(&[0, 15, 16]) };
    let operands = match random.below(4) {
        0 => {
            [&[0x53, 0x56, variable], &one[..], &[0x55, 0x41, variable, 0x55, 0x41, used]].concat()
        }
        1 => [&[0x55, 0x43, 0x46, variable], &one[..], &[0x41, variable, 0x41, used]].concat(),
        2 => {
            let value = [&[0x55], &one[..]].concat();
            [&[0x53, 0x57, variable], &value[..], &[0x51, variable, 0x51, used]].concat()
        }
        _ => {
            let value = [&[0x55], &one[..]].concat();
            let bound = [&[0x47, variable], &value[..], &[0x44, 0x51, variable]].concat();
            [&[0x55, 0x43], &bound[..], &[0x45, 0x51, used]].concat()
        }
    };
    constants.pack(&match random.below(3) {
        0 => [&[0x56, used][..], &other, &operands].concat(),
        1 => [&[0x57, used, 0x55][..], &other, &operands].concat(),
        _ => operands,
    })
}

/// A pack whose term has exactly 12 or 13 levels.
fn deep_pack(random: &mut Random) -> Vec<u8> {
    let constants = fitting_constants(random);
    let (source, target, body) = constants.triples[0];
    let term = [0x50, 0x40, source, 0x40, target, body];
    let levels = TERM_LEVELS + random.below(2);
    constants.pack(&deepened(random, &term, 2, levels))
}

/// Two languages that share a part; their sum has exactly so many bytes.
fn overlapping(random: &mut Random, bytes: usize) -> (Language, Language) {
    let whole = full_language(random, bytes);
    let (mut left, mut right) = (whole.clone(), whole);
    let middle = left.productions.len() / 2;
    let shared = random.below(middle);
    left.productions.truncate(middle + shared);
    right.productions.drain(..middle);
    (left, right)
}

/// Changes the arguments of the first production; it then fits no language that shares it.
fn widen_first(language: &mut Language) {
    if let Some(first) = language.productions.first_mut() {
        let kinds = if first.arguments().is_empty() { &[1][..] } else { &[] };
        *first = Production::new(first.result, first.name, kinds);
    }
}

/// Sums of languages of exactly 1,024 or 1,025 bytes, some of which do not fit.
fn full_language_sum(random: &mut Random) -> Vec<u8> {
    let mut constants = Constants::default();
    let bytes = LANGUAGE_LIMIT + random.below(2);
    let (left, mut right) = overlapping(random, bytes);
    if random.percent(20) {
        widen_first(&mut right);
    }
    let left = constants.language(&left);
    let right = constants.language(&right);
    if random.percent(50) {
        constants.languages.iter_mut().for_each(|bytes| write_steps(random, 100, bytes));
    }
    let empty = constants.language(&Language::default());
    let body = constants.body(empty, empty, &Body::default());
    let from_empty = |target| [0x50, 0x40, empty, 0x40, target, body];
    let term = match random.below(4) {
        3 => [&[0x53][..], &from_empty(left), &from_empty(right)].concat(),
        0 => vec![0x55, 0x43, 0x40, left, 0x40, right],
        1 => vec![0x53, 0x55, 0x40, left, 0x55, 0x40, right],
        _ => vec![0x52, 0x55, 0x43, 0x40, right, 0x40, left, 0x40, left],
    };
    constants.pack(&term)
}

/// A constant of exactly 1,024 or 1,025 bytes that is shorter without its steps of 1, alone or in
/// a sum of about 1,024 bytes.
fn shorter_constant(random: &mut Random) -> Vec<u8> {
    let mut constants = Constants::default();
    let bytes = LANGUAGE_LIMIT + usize::from(random.percent(15));
    let steps = random.within(3..=6);
    let (language, file) = full_with_steps(random, bytes, steps);
    constants.languages.push(file);
    let room = 2 * steps - 5;
    let kinds = vec![31; random.within(room - 1..=room + 1).min(ARGUMENTS)];
    let more = constants.language(&Language {
        classes: vec![],
        productions: vec![new_production(random, &language, &kinds)],
    });
    let empty = constants.language(&Language::default());
    let body = constants.body(empty, empty, &Body::default());
    let from_empty = |target: &[u8]| [&[0x50, 0x40, empty], target, &[body]].concat();
    constants.pack(&match random.below(5) {
        0 => from_empty(&[0x40, 0]),
        1 => vec![0x55, 0x40, 0],
        2 => [vec![0x53], from_empty(&[0x40, 0]), from_empty(&[0x40, more])].concat(),
        _ => from_empty(&[0x43, 0x40, 0, 0x40, more]),
    })
}

/// A production that fits a language and is not in it.
fn new_production(random: &mut Random, language: &Language, kinds: &[u8]) -> Production {
    loop {
        let production = Production::new(random.below(KINDS) as u8, random.byte(), kinds);
        let has_class = language.class_kinds() & bit(production.result) != 0;
        let is_new = |other: &Production| other.key() != production.key();
        if !has_class && language.productions.iter().all(is_new) {
            return production;
        }
    }
}

/// Changes a class or production so that the language fits fewer others.
fn change_entry(random: &mut Random, language: &mut Language) {
    if language.classes.is_empty() {
        return widen_first(language);
    }
    let place = random.below(language.classes.len());
    match random.below(3) {
        0 => with_one_range(random, language, related),
        1 => {
            let class = language.classes.remove(place);
            let production = Production::new(class.kind, random.byte(), &[]);
            let place = language.productions.partition_point(|p| p.key() < production.key());
            language.productions.insert(place, production);
        }
        _ => widen_first(language),
    }
}

/// A sum of languages or of identities of which one was changed; many do not fit.
fn sum_with_change(random: &mut Random) -> Vec<u8> {
    let mut constants = Constants::default();
    let base = language(random);
    let (mut left, right) = (part_of(random, &base), part_of(random, &base));
    change_entry(random, &mut left);
    let mut pair = [constants.language(&left), constants.language(&right)];
    if random.percent(50) {
        pair.swap(0, 1);
    }
    let [left, right] = pair;
    constants.pack(&match random.below(2) {
        0 => vec![0x55, 0x43, 0x40, left, 0x40, right],
        _ => vec![0x53, 0x55, 0x40, left, 0x55, 0x40, right],
    })
}

/// Gives the first clause a code of one node of the counting language.
fn shorten_first(translation: &mut Translation) {
    let clauses: Vec<Clause> = translation.body.clauses.iter().collect();
    let short = |(number, clause): (usize, &Clause)| {
        let code = if number == 0 { vec![1, 0] } else { clause.code.to_vec() };
        (clause.place(), code)
    };
    let codes: Vec<((u16, u8), Vec<u8>)> = clauses.iter().enumerate().map(short).collect();
    let clauses =
        codes.iter().map(|((key, number), code)| Clause { key: *key, number: *number, code });
    translation.body.clauses = clauses.collect();
}

/// A sign 53 whose operands map a shared kind differently, if such a change is well formed.
fn conflicting_sum(random: &mut Random) -> Vec<u8> {
    let mut constants = Constants::default();
    let base = language(random);
    let whole = endomorphism(random, &base);
    let left = cut(&whole, part_of(random, &whole.source));
    let mut right = cut(&whole, part_of(random, &whole.source));
    for _ in 0..8 {
        let mut changed = right.clone();
        let kind = random.below(KINDS);
        changed.body.mapping[kind] = changed.body.mapping[kind].map(|_| random.below(KINDS) as u8);
        if changed.check_well_formed().is_ok() {
            right = changed;
        }
    }
    if random.percent(40) {
        right = with_changed_numbers(random, &right).unwrap_or(right);
    }
    if random.percent(30) {
        let mut changed = right.clone();
        let on_target = random.percent(50);
        let language = if on_target { &mut changed.target } else { &mut changed.source };
        with_one_range(random, language, related);
        if changed.check_well_formed().is_ok() {
            right = changed;
        }
    }
    let left = constants.translation(&left);
    let right = constants.translation(&right);
    constants.pack(&[&[0x53][..], &left, &right].concat())
}

/// Translations by rising ranges: each target lies inside the source of the next.
fn widening_chain(random: &mut Random) -> Vec<Translation> {
    let base = language(random);
    let mut chain: Vec<Translation> = Vec::new();
    for _ in 0..random.within(2..=4) {
        let Translation { source, target, body } = endomorphism(random, &base);
        let classes = chain.last().map(|before| before.target.classes.clone());
        let range = if classes.is_some() { around } else { inside };
        let source = Language { classes: classes.unwrap_or(source.classes), ..source };
        let source = with_ranges(random, &source, range);
        let classes = if chain.is_empty() { &target.classes } else { &source.classes };
        let wider = Language { classes: classes.clone(), productions: target.productions };
        chain.push(Translation { source, target: with_ranges(random, &wider, around), body });
    }
    chain
}

/// Changes a range of one translation of a chain, or takes a class from its source.
fn spoil_chain(random: &mut Random, chain: &mut [Translation]) {
    let place = random.below(chain.len());
    let value = &mut chain[place];
    match random.below(4) {
        0 => with_one_range(random, &mut value.target, related),
        1 if !value.source.classes.is_empty() => {
            let gone = random.below(value.source.classes.len());
            value.source.classes.remove(gone);
            let mapping = value.body.mapping;
            value.body.mapping =
                cut_mapping(&value.source, |kind| mapping[kind as usize].expect("mapped before"));
            value.body.others = cut_others(&value.source, &value.body.others);
        }
        _ => with_one_range(random, &mut value.source, related),
    }
}

/// Translations that widen, joined onto others that widen; some do not fit.
fn widening_join(random: &mut Random) -> Vec<u8> {
    let mut constants = Constants::default();
    let mut chain = widening_chain(random);
    if random.percent(50) {
        spoil_chain(random, &mut chain);
    }
    let mut term: Vec<u8> = vec![];
    let onto_last = random.percent(50);
    for value in if onto_last { chain } else { chain.into_iter().rev().collect() } {
        let mut next = constants.translation(&value);
        if random.percent(15) {
            let language = next[if onto_last { 2 } else { 4 }];
            next = vec![0x55, 0x40, language];
        }
        term = match (term.is_empty(), onto_last) {
            (true, _) => next,
            (_, true) => [&[0x54], &next[..], &term].concat(),
            (_, false) => [&[0x54], &term[..], &next].concat(),
        };
    }
    constants.pack(&term)
}

/// Translations of a language into itself, or from others into it, of which one or two are joined
/// onto another; numbers above 15 and targets that do not fit come up, also both.
fn numbered_join(random: &mut Random) -> Vec<u8> {
    let (mut constants, base) = (Constants::default(), language(random));
    let mut terms: Vec<Vec<u8>> = vec![];
    for _ in 0..random.within(2..=3) {
        let mut value = endomorphism(random, &base);
        if random.percent(15) {
            value = with_changed_numbers(random, &value).unwrap_or(value);
        }
        if random.percent(15) {
            let part = part_of(random, &value.source);
            value = cut(&value, part);
        }
        terms.push(constants.translation(&value));
    }
    let last = terms.pop().unwrap_or_default();
    let onto_last = random.percent(50);
    let term = terms.into_iter().fold(last, |term, next| match onto_last {
        true => [&[0x54], &next[..], &term].concat(),
        false => [&[0x54], &term[..], &next].concat(),
    });
    constants.pack(&term)
}

/// A sign 50 whose value is over 4,096 bytes and may not be well formed.
fn overfull_body(random: &mut Random) -> Vec<u8> {
    let mut constants = Constants::default();
    let bytes = TRANSLATION_LIMIT + random.within(1..=300);
    let mut whole = full_translation(random, bytes);
    wrong_body(random, &mut whole);
    let term = constants.translation(&whole);
    constants.pack(&term)
}

/// A sign 50 or 53 whose value has exactly 4,096 or 4,097 bytes, or a sum that does not fit.
fn full_translation_pack(random: &mut Random) -> Vec<u8> {
    let mut constants = Constants::default();
    let bytes = TRANSLATION_LIMIT + random.below(2);
    let target = if random.percent(50) { counting_language() } else { counting_with_class(random) };
    let numbers = full_numbers(random);
    let whole = full_translation_by(random, target, numbers, bytes);
    if random.percent(40) {
        let term = constants.translation(&whole);
        return constants.pack_with_steps(random, &term);
    }
    let (mut left, mut right) = (whole.source.clone(), whole.source.clone());
    let middle = left.productions.len() / 2;
    left.productions.truncate(middle + random.below(2));
    right.productions.drain(..middle);
    let (left, mut right) = (cut(&whole, left), cut(&whole, right));
    if random.percent(20) {
        shorten_first(&mut right);
    }
    let left = constants.translation(&left);
    let right = constants.translation(&right);
    constants.pack_with_steps(random, &[&[0x53][..], &left, &right].concat())
}

/// A join whose code has about 16 levels: a chain through a clause that adds levels.
fn deep_join(random: &mut Random) -> Vec<u8> {
    let mut constants = Constants::default();
    let added = random.within(1..=4);
    let longer = [[1, 1].repeat(added), vec![3, 1]].concat();
    let dropped: &[u8] = random.pick(&[&[1, 0], &[3, 1], &[3, 2], &[1, 2, 3, 2, 3, 1]]);
    let outer = counting_translation([&[1, 0], &longer, dropped]);
    let levels = random.within(15 / added..=18 / added).clamp(1, 16);
    let source = Language { classes: vec![], productions: vec![Production::new(5, 0, &[])] };
    let code = chain_code(levels);
    let clauses = [Clause::plain(0x0500, &code)].into_iter().collect();
    let body = Body { mapping: cut_mapping(&source, |_| 1), clauses, ..Body::default() };
    let inner = Translation { source, target: counting_language(), body };
    let outer = constants.translation(&outer);
    let inner = constants.translation(&inner);
    constants.pack(&[&[0x54][..], &outer, &inner].concat())
}

/// A join whose codes have about 16 levels and end in tokens or arguments.
fn deep_token_join(random: &mut Random) -> Vec<u8> {
    let mut constants = Constants::default();
    let added = random.within(1..=3);
    let longer = [[1, 1].repeat(added), vec![3, 1]].concat();
    let token: &[u8] = random.pick(&[
        &[1, 3, 3, 1],
        &[1, 3, 3, 1],
        &[1, 1, 1, 3, 3, 1],
        &[1, 3, 2, 0, 9],
        &[1, 1, 1, 3, 2, 0, 9],
    ]);
    let language = counting_with_tokens();
    let codes = [&[1, 0], &longer[..], &[1, 2, 3, 2, 3, 1], token];
    let clauses = language.productions.iter().zip(codes);
    let clauses = clauses.map(|(production, code)| Clause::plain(production.key(), code));
    let mapping = cut_mapping(&language, |kind| kind);
    let body = Body { mapping, clauses: clauses.collect(), ..Body::default() };
    let outer = Translation { source: language.clone(), target: language, body };
    let levels = random.within(14 / added..=18 / added).clamp(1, 16);
    let inner = single_translation(&chain_code_with_end(random, levels));
    let outer = constants.translation(&outer);
    let inner = constants.translation(&inner);
    constants.pack(&[&[0x54][..], &outer, &inner].concat())
}

/// A join whose value is about 4,096 bytes, or far above any count.
fn long_join(random: &mut Random) -> Vec<u8> {
    let mut constants = Constants::default();
    let uses = random.within(1..=6);
    let mut many = [1, 2, 3, 1].repeat(uses);
    many.extend_from_slice(&[3, 1]);
    let wide = vec![1, 2, 3, 1, 3, 2];
    let swapped: &[u8] = random.pick(&[&wide, &[1, 2, 3, 2, 3, 1], &[1, 1, 3, 2]]);
    let outer = counting_translation([&[1, 0], &many, swapped]);
    let bytes = random.within(500..=TRANSLATION_LIMIT);
    let mut inner = if random.percent(50) {
        full_translation(random, bytes)
    } else {
        counting_translation([&chain_code(16), &[1, 1, 1, 1, 3, 1], &wide])
    };
    if random.percent(15) {
        inner.target.classes.push(Class::plain(9, 0, 9));
    }
    let outer = constants.translation(&outer);
    let inner = constants.translation(&inner);
    constants.pack(&[&[0x54][..], &outer, &inner].concat())
}

/// A join with an identity of a value of exactly 4,096 bytes or a few less.
fn full_join(random: &mut Random) -> Vec<u8> {
    let mut constants = Constants::default();
    let outer = counting_translation([&[1, 1, 1, 0], &[1, 1, 3, 1], &[1, 2, 3, 2, 3, 1]]);
    let bytes = TRANSLATION_LIMIT - random.below(60);
    let inner = full_translation(random, bytes);
    let identity = vec![0x55, 0x40, 0];
    let outer = constants.translation(&outer);
    let inner = constants.translation(&inner);
    let outer = if random.percent(40) { identity } else { outer };
    constants.pack(&[&[0x54][..], &outer, &inner].concat())
}

/// A pack with a translation that may not be well formed at its sign 50.
fn wrong_body_pack(random: &mut Random) -> Vec<u8> {
    let file = translation_file(random);
    let mut parts = Fields::new(&file).map_while(Result::ok);
    let source = parts.next().map_or(vec![], |field| field.contents.to_vec());
    let target = parts.next().map_or(vec![], |field| field.contents.to_vec());
    let start = (6 + source.len() + target.len()).min(file.len());
    let bodies = vec![file[start..].to_vec()];
    let constants = Constants { languages: vec![source, target], bodies, triples: vec![] };
    constants.pack(&[0x50, 0x40, 0, 0x40, 1, 0])
}

/// A pack of exactly 32,768 bytes or one more, filled by a body that is not used.
fn full_pack(random: &mut Random) -> Vec<u8> {
    let mut constants = fitting_constants(random);
    let term = [0x55, 0x40, random.below(constants.languages.len()) as u8];
    let wanted = PACK_LIMIT + random.below(2);
    let code = wanted - constants.pack(&term).len() - 8;
    let clauses = [Clause::plain(0, &vec![9; code])].into_iter().collect();
    constants.body(0, 0, &Body { clauses, ..Body::default() });
    constants.pack(&term)
}

/// A pack with 32 or 33 languages or bodies, and a term that names the last.
fn many_constants(random: &mut Random) -> Vec<u8> {
    let mut constants = fitting_constants(random);
    let language = constants.languages[0].clone();
    let languages = random.pick(&[31, 32, 32, 33]);
    constants.languages.resize(languages, language);
    let (source, target, body) = constants.triples[0];
    let last = constants.bodies[body as usize].clone();
    let bodies = random.pick(&[31, 32, 32, 33]);
    constants.bodies.resize(bodies, last);
    let body = random.pick(&[30, 31, 32]);
    let term = match random.below(2) {
        0 => vec![0x50, 0x40, source, 0x40, target, body],
        _ => vec![0x55, 0x40, random.pick(&[30, 31, 32])],
    };
    constants.pack(&term)
}

/// Bodies whose fields are broken or out of order: a mapping behind a clause, number 0 in a field 28 or
/// 29, lengths, and mappings and clauses that do not rise.
const WRONG_BODIES: [&[u8]; 10] = [
    &[0x23, 0, 2, 1, 1, 0x22, 0, 2, 1, 1],
    &[0x23, 0, 2, 1, 1, 0x28, 0, 3, 1, 1, 1],
    &[0x29, 0, 3, 1, 1, 1, 0x22, 0, 2, 1, 1],
    &[0x28, 0, 3, 1, 0, 1],
    &[0x29, 0, 3, 1, 1, 0],
    &[0x28, 0, 2, 1, 1],
    &[0x29, 0, 2, 1, 1],
    &[0x28, 0, 3, 1, 1, 1, 0x22, 0, 2, 1, 1],
    &[0x29, 0, 3, 1, 1, 1, 0x23, 0, 2, 1, 1],
    &[0x28, 0, 3, 1, 2, 1, 0x28, 0, 3, 1, 1, 1],
];

/// A pack in which some language has a clash, is too long, or a group is out of order.
fn wrong_constants(random: &mut Random) -> Vec<u8> {
    let mut constants = fitting_constants(random);
    let place = random.below(constants.languages.len());
    let term = [0x55, 0x40, 0];
    match random.below(8) {
        0 => constants.languages[place] = full_language_file(random, LANGUAGE_LIMIT),
        1 => constants.languages[place] = full_language_file(random, LANGUAGE_LIMIT + 1),
        2 | 3 => constants.languages[place] = vec![0x11, 0, 5, 1, 0, 0, 0, 1, 0x12, 0, 2, 1, 0],
        4 => constants.languages[place] = [0x12, 0, 2, 1, 0].repeat(2),
        5 => constants.bodies.push([0x22, 0, 2, 1, 1].repeat(2)),
        6 => constants.bodies.push(vec![0x23, 0, 2, 1, 1, 0x23, 0, 2, 1, 0]),
        _ => constants.bodies.push(random.pick(&WRONG_BODIES).to_vec()),
    }
    let mut pack = constants.pack(&term);
    if random.percent(30) {
        damage(random, &mut pack);
    }
    pack
}

/// The bytes of a pack: one that reduces, at a limit, wrong in one way, or damaged.
fn pack_file(random: &mut Random) -> Vec<u8> {
    match random.below(44) {
        0 => full_pack(random),
        1 => many_constants(random),
        2 | 3 => wrong_constants(random),
        4 | 5 => full_language_sum(random),
        6 | 7 => full_translation_pack(random),
        8 => deep_join(random),
        9 => deep_token_join(random),
        10 => long_join(random),
        11 | 12 => full_join(random),
        13..=15 => wrong_body_pack(random),
        16 | 17 => deep_pack(random),
        18..=20 => {
            let mut pack = random_pack(random);
            damage_fields(random, &mut pack);
            pack
        }
        21 => {
            let mut pack = random_pack(random);
            damage(random, &mut pack);
            pack
        }
        22 => conflicting_sum(random),
        23 => overfull_body(random),
        24 => sum_with_change(random),
        25 => scoped_pack(random),
        26..=28 => widening_join(random),
        29 => shorter_constant(random),
        30..=33 => numbered_join(random),
        _ => random_pack(random),
    }
}

/// A pack with the lengths of workspace and output, seldom too short.
pub fn reduce_case(random: &mut Random) -> ReduceCase {
    let workspace = match random.below(20) {
        0 => WORKSPACE_LEAST - 1,
        1 => random.below(WORKSPACE_LEAST),
        2 => WORKSPACE_LEAST + random.below(40),
        _ => WORKSPACE_LEAST,
    };
    let output = match random.below(20) {
        0 => OUTPUT_LEAST - 1,
        1 => random.below(OUTPUT_LEAST),
        2 => OUTPUT_LEAST + random.below(40),
        _ => OUTPUT_LEAST,
    };
    let mut pack = pack_file(random);
    if pack.len() < PACK_LIMIT && random.percent(15) {
        write_steps_within(random, &mut pack);
    }
    ReduceCase { pack, workspace, output }
}

/// A pack for the laws: constants and some translation terms over them.
#[derive(Clone, Debug)]
pub struct LawPack {
    constants: Constants,
    /// Terms of at most four levels.
    pub terms: Vec<Vec<u8>>,
}

/// Constants and a few terms that often fit.
pub fn law_pack(random: &mut Random) -> LawPack {
    let constants = fitting_constants(random);
    let names = constants.names();
    let mut terms = Vec::new();
    for _ in 0..random.within(2..=4) {
        let mut term = Vec::new();
        let levels = random.pick(&[2, 2, 2, 3, 4]);
        TermWriter::new(&names).translation(random, levels, &mut term);
        terms.push(term);
    }
    LawPack { constants, terms }
}

/// A language term over the constants of a pack, of at most three levels.
pub fn law_language(random: &mut Random, pack: &LawPack) -> Vec<u8> {
    let names = pack.constants.names();
    let mut term = Vec::new();
    let levels = random.pick(&[1, 1, 1, 2, 3]);
    TermWriter::new(&names).language(random, levels, &mut term);
    term
}

/// The term of one of the translations that the constants of a pack hold.
pub fn law_body(random: &mut Random, pack: &LawPack) -> Vec<u8> {
    let (source, target, body) = random.pick(&pack.constants.triples);
    vec![0x50, 0x40, source, 0x40, target, body]
}

/// The pack with that term as its field 32.
pub fn pack_with_term(pack: &LawPack, term: &[u8]) -> Vec<u8> {
    pack.constants.pack(term)
}

#[cfg(test)]
mod tests {
    use super::*;
    use crate::language::Language;
    use crate::reduce::reduce;
    use crate::translation::read_translation;

    /// Whether a class of one language is another in the other language.
    fn differ(source: &Language, target: &Language) -> bool {
        source.classes.iter().any(|class| !target.classes.contains(class))
    }

    /// Reduces packs by a generator and counts the numbers; accepted values are looked at.
    fn count(
        cases: usize,
        pack: fn(&mut Random) -> Vec<u8>,
        mut look: impl FnMut(Translation),
    ) -> [usize; 27] {
        let mut random = Random::new(1);
        let mut numbers = [0; 27];
        for _ in 0..cases {
            let (mut workspace, mut output) = (vec![0; WORKSPACE_LEAST], vec![0; OUTPUT_LEAST]);
            let pack = pack(&mut random);
            let outcome = reduce(&pack, &mut workspace, &mut output);
            numbers[outcome.number() as usize] += 1;
            if outcome.number() == 0 {
                let value = read_translation(&output[..outcome.length() as usize]);
                look(value.expect("what reduces is well formed"));
            }
        }
        numbers
    }

    #[test]
    fn joins_that_widen_are_accepted_or_refused_by_their_ranges() {
        let mut widened = 0;
        let numbers = count(3000, widening_join, |value| {
            widened += usize::from(differ(&value.source, &value.target));
        });
        let refused = [5, 13].map(|number| numbers[number]);
        assert!(widened > 500 && refused.iter().all(|&count| count > 30), "{widened} {numbers:?}");
    }

    #[test]
    fn constants_become_shorter_and_sums_fit_only_then() {
        let (mut shorter, mut full) = (0, 0);
        let numbers = count(1000, shorter_constant, |value| {
            let length = value.target.encoded_length();
            shorter += usize::from(length < LANGUAGE_LIMIT);
            full += usize::from(length == LANGUAGE_LIMIT);
        });
        let refused = [1, 11].map(|number| numbers[number]);
        assert!(shorter > 100 && full > 100, "{shorter} {full} {numbers:?}");
        assert!(refused.iter().all(|&count| count > 50), "{numbers:?}");
    }
}
