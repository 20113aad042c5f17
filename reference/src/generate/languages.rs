//! Languages: well-formed ones, exactly full ones, and files that are to be refused.

use super::damage::damage;
use super::random::Random;
use super::ranges::step;
use super::written::{full_with_steps, write_steps};
use crate::language::{bit, Class, Language, Production, ARGUMENTS, KINDS, LANGUAGE_LIMIT};
use std::collections::btree_map::{BTreeMap, Entry};

/// The kinds of a language to be: those with a class, and those that are results.
pub struct Roles {
    pub classes: Vec<u8>,
    pub results: Vec<u8>,
}

/// A mixed list of kinds, often with the lowest and the highest in it.
fn some_kinds(random: &mut Random, count: usize) -> Vec<u8> {
    let mut kinds: Vec<u8> = (0..KINDS as u8).collect();
    for place in 0..count {
        let other = random.within(place..=KINDS - 1);
        kinds.swap(place, other);
    }
    kinds.truncate(count);
    if random.percent(30) && !kinds.contains(&31) {
        kinds[0] = 31;
    }
    kinds
}

/// Chooses which kinds have a class and which are results.
pub fn roles(random: &mut Random) -> Roles {
    let most = if random.percent(10) { 32 } else { 6 };
    let count = random.within(1..=most);
    let mut classes = some_kinds(random, count);
    let results = classes.split_off(random.within(0..=count));
    Roles { classes, results }
}

/// A class with ranges that are often narrow or end at the lowest or highest value, and mostly
/// step 1.
fn class(random: &mut Random, kind: u8) -> Class {
    let low = if random.percent(30) { 0 } else { random.bits() as u16 };
    let high = match random.below(4) {
        0 => u16::MAX,
        1 => low,
        2 => low.saturating_add(random.below(300) as u16),
        _ => low.max(random.bits() as u16),
    };
    Class { kind, low, high, step: step(random, low, high) }
}

/// A production name, often a small one or the last.
pub fn name(random: &mut Random) -> u8 {
    match random.below(8) {
        0 => 255,
        1 => random.byte(),
        _ => random.below(6) as u8,
    }
}

/// Argument kinds from the list, seldom any kind at all.
pub fn arguments(random: &mut Random, kinds: &[u8]) -> Vec<u8> {
    let count = match random.below(10) {
        0 => ARGUMENTS,
        1 => random.within(0..=ARGUMENTS),
        _ => random.within(0..=3),
    };
    let any = |random: &mut Random| {
        if kinds.is_empty() || random.percent(1) {
            random.below(KINDS) as u8
        } else {
            random.pick(kinds)
        }
    };
    (0..count).map(|_| any(random)).collect()
}

/// Productions for the results; the first of each has only arguments with a class.
fn productions(random: &mut Random, roles: &Roles, count: usize) -> Vec<Production> {
    let all: Vec<u8> = roles.classes.iter().chain(&roles.results).copied().collect();
    let mut table = BTreeMap::new();
    for &result in &roles.results {
        let leaf =
            if roles.classes.is_empty() { vec![] } else { arguments(random, &roles.classes) };
        let production = Production::new(result, name(random), &leaf);
        table.insert(production.key(), production);
    }
    for _ in 0..if roles.results.is_empty() { 0 } else { count } {
        let result = random.pick(&roles.results);
        let production = Production::new(result, name(random), &arguments(random, &all));
        table.entry(production.key()).or_insert(production);
    }
    table.into_values().collect()
}

/// A well-formed language.
pub fn language(random: &mut Random) -> Language {
    let roles = roles(random);
    let most = if random.percent(10) { 120 } else { 8 };
    let count = random.within(0..=most);
    let mut kinds = roles.classes.clone();
    kinds.sort_unstable();
    let classes = kinds.into_iter().map(|kind| class(random, kind)).collect();
    let productions = productions(random, &roles, count);
    let mut language = Language { classes, productions };
    trim(&mut language, LANGUAGE_LIMIT);
    language
}

/// Drops productions until the language is at most so long.
pub fn trim(language: &mut Language, limit: usize) {
    while language.encoded_length() > limit {
        language.productions.pop();
    }
}

/// A well-formed language of exactly so many bytes, at least some hundreds.
pub fn full_language(random: &mut Random, bytes: usize) -> Language {
    let mut language = language(random);
    language.classes.truncate(KINDS - 1);
    trim(&mut language, bytes - 100);
    let (classes, mut rest) = (language.class_kinds(), bytes - language.encoded_length());
    let free: Vec<u8> = (0..KINDS as u8).filter(|&kind| classes & bit(kind) == 0).collect();
    let mut table: BTreeMap<u16, Production> =
        language.productions.iter().map(|production| (production.key(), *production)).collect();
    while rest > 0 {
        let size = if rest <= 13 { rest } else { random.within(5..=(rest - 5).min(13)) };
        let (result, name) = (random.pick(&free), random.byte());
        let kinds: Vec<u8> = (0..size - 5).map(|_| random.below(KINDS) as u8).collect();
        let production = Production::new(result, name, &kinds);
        if let Entry::Vacant(place) = table.entry(production.key()) {
            place.insert(production);
            rest -= size;
        }
    }
    language.productions = table.into_values().collect();
    language
}

/// The bytes of a language.
pub fn encoded(language: &Language) -> Vec<u8> {
    let mut bytes = Vec::new();
    language.encode(&mut bytes);
    bytes
}

/// Gives a result kind a class too, in the right order of fields.
fn clash(random: &mut Random, language: &mut Language) {
    let Some(production) = language.productions.first() else {
        return;
    };
    let class = class(random, production.result);
    let place = language.classes.partition_point(|other| other.kind < class.kind);
    language.classes.insert(place, class);
}

/// A class with low and high about the same, any step, and a length that may be wrong.
fn edge_class(random: &mut Random, kind: u8) -> Vec<u8> {
    let low = random.bits() as u16;
    let high = random.pick(&[low, low, low.wrapping_sub(1), low.wrapping_add(1)]);
    let step = random.pick(&[0, 1, 1, 2, 9, 256, u16::MAX]);
    let numbers = [low, high, step, 0].map(u16::to_be_bytes).concat();
    let length = random.pick(&[5, 5, 5, 4, 6, 7, 7, 7, 7, 8, 9]);
    let contents = [&[kind], &numbers[..]].concat();
    [&[0x11, 0, length as u8], &contents[..length]].concat()
}

/// The bytes of a language with one field out of the common: a limit or one past it.
fn edge_field(random: &mut Random) -> Vec<u8> {
    let kind = random.pick(&[0, 31, 31, 31, 32, 255]);
    if random.percent(50) {
        return edge_class(random, kind);
    }
    let count = random.pick(&[0, 1, 8, 9, 10]);
    let length = 2 + count as u8;
    let mut field = vec![0x12, 0, length, kind, random.pick(&[0, 255])];
    field.extend((0..count).map(|_| random.pick(&[0, 5, 31, 31, 31, 31, 31, 32])));
    field
}

/// The bytes of a well-formed language of exactly so many; some steps of 1 may be written.
pub fn full_language_file(random: &mut Random, bytes: usize) -> Vec<u8> {
    if random.percent(50) {
        return encoded(&full_language(random, bytes));
    }
    let steps = random.within(1..=3);
    full_with_steps(random, bytes, steps).1
}

/// The bytes of a well-formed language; some steps of 1 may be written.
pub fn written(random: &mut Random, language: &Language) -> Vec<u8> {
    let mut bytes = encoded(language);
    if random.percent(30) {
        write_steps(random, 50, &mut bytes);
    }
    bytes
}

/// The bytes of a language: valid, at a limit, or damaged.
pub fn language_file(random: &mut Random) -> Vec<u8> {
    match random.below(20) {
        0 => full_language_file(random, LANGUAGE_LIMIT),
        1 => full_language_file(random, LANGUAGE_LIMIT + 1),
        2 => {
            let mut bytes = full_language_file(random, LANGUAGE_LIMIT);
            damage(random, &mut bytes);
            bytes
        }
        3 | 4 => {
            let mut language = language(random);
            clash(random, &mut language);
            let mut bytes = written(random, &language);
            if random.percent(20) {
                damage(random, &mut bytes);
            }
            bytes
        }
        5 | 6 => edge_field(random),
        7 => (0..random.below(12)).map(|_| random.byte()).collect(),
        8..=13 => {
            let language = language(random);
            written(random, &language)
        }
        _ => {
            let language = language(random);
            let mut bytes = written(random, &language);
            for _ in 0..random.within(1..=2) {
                damage(random, &mut bytes);
            }
            bytes
        }
    }
}
