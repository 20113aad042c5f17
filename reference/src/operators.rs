//! The operators of the terms: sum, without, join and identity.

use crate::body::{Body, Clause, Clauses, Mapping, Numbered};
use crate::code::{nodes, Node, Symbol, CODE_LEVELS};
use crate::field::HEADER;
use crate::grammar::Grammar;
use crate::language::{bit, Class, Language, Production, ARGUMENTS, KINDS, LANGUAGE_LIMIT};
use crate::outcome::{require, Refusal};
use crate::translation::{Translation, TRANSLATION_LIMIT};
use std::cmp::Ordering;

/// The union of two rising lists; `None` if equal keys have different entries.
fn union<T: Copy + PartialEq, K: Ord>(left: &[T], right: &[T], key: fn(&T) -> K) -> Option<Vec<T>> {
    let mut merged = Vec::with_capacity(left.len() + right.len());
    let (mut left, mut right) = (left, right);
    while let ([first, left_rest @ ..], [second, right_rest @ ..]) = (left, right) {
        let order = key(first).cmp(&key(second));
        if order == Ordering::Equal && first != second {
            return None;
        }
        merged.push(if order == Ordering::Greater { *second } else { *first });
        left = if order == Ordering::Greater { left } else { left_rest };
        right = if order == Ordering::Less { right } else { right_rest };
    }
    merged.extend_from_slice(left);
    merged.extend_from_slice(right);
    Some(merged)
}

/// The entry of a rising list that has the key.
fn find<T>(list: &[T], wanted: u16, key: fn(&T) -> u16) -> Option<&T> {
    let place = list.binary_search_by_key(&wanted, key).ok()?;
    Some(&list[place])
}

/// Whether an equal entry is in a rising list.
fn has<T: PartialEq>(list: &[T], entry: &T, key: fn(&T) -> u16) -> bool {
    find(list, key(entry), key) == Some(entry)
}

/// The place of a class in the order of classes.
fn class_key(class: &Class) -> u16 {
    u16::from(class.kind)
}

/// The sum of two languages; `None` if they do not fit.
pub fn unite_languages(left: &Language, right: &Language) -> Option<Language> {
    let classes = union(&left.classes, &right.classes, class_key)?;
    let productions = union(&left.productions, &right.productions, Production::key)?;
    let sum = Language { classes, productions };
    (!sum.clashes()).then_some(sum)
}

/// The sum of two languages, or its refusal.
pub fn sum_languages(left: &Language, right: &Language) -> Result<Language, Refusal> {
    let sum = unite_languages(left, right).ok_or(Refusal::Sum)?;
    require(sum.encoded_length() <= LANGUAGE_LIMIT, Refusal::Limit)?;
    Ok(sum)
}

/// The first language without the classes and productions of the second.
pub fn language_without(left: &Language, right: &Language) -> Language {
    let classes = left.classes.iter().copied();
    let productions = left.productions.iter().copied();
    Language {
        classes: classes.filter(|class| !has(&right.classes, class, class_key)).collect(),
        productions: productions
            .filter(|production| !has(&right.productions, production, Production::key))
            .collect(),
    }
}

/// Whether each class of the first language lies inside the second's class of its kind, and each
/// production is in the second.
fn is_within(left: &Language, right: &Language) -> bool {
    let mut classes = left.classes.iter();
    let mut productions = left.productions.iter();
    classes.all(|class| {
        let wider = find(&right.classes, class_key(class), class_key);
        wider.is_some_and(|wider| wider.contains(class))
    }) && productions.all(|production| has(&right.productions, production, Production::key))
}

/// The union of two mappings; `None` if a shared kind is mapped differently.
fn unite_mappings(left: &Mapping, right: &Mapping) -> Option<Mapping> {
    let mut sum = *left;
    for (place, mapped) in sum.iter_mut().zip(right) {
        if place.is_some() && mapped.is_some() && place != mapped {
            return None;
        }
        *place = place.or(*mapped);
    }
    Some(sum)
}

/// The union of the mappings by other numbers than 0; `None` if a kind that is mapped in both has
/// different numbers in them, or is mapped differently by one.
fn unite_others(left: &Body, right: &Body) -> Option<Vec<Numbered>> {
    let shared = left.mapped_kinds() & right.mapped_kinds();
    let mut shared = (0..KINDS as u8).filter(|&kind| shared & bit(kind) != 0);
    if !shared.all(|kind| left.others_of(kind) == right.others_of(kind)) {
        return None;
    }
    union(&left.others, &right.others, Numbered::key)
}

/// The sum of two translations; `None` if they do not fit.
pub fn unite_translations(left: &Translation, right: &Translation) -> Option<Translation> {
    let source = unite_languages(&left.source, &right.source)?;
    let target = unite_languages(&left.target, &right.target)?;
    let mapping = unite_mappings(&left.body.mapping, &right.body.mapping)?;
    let others = unite_others(&left.body, &right.body)?;
    let left_clauses: Vec<Clause> = left.body.clauses.iter().collect();
    let right_clauses: Vec<Clause> = right.body.clauses.iter().collect();
    let clauses = union(&left_clauses, &right_clauses, Clause::place)?.into_iter().collect();
    Some(Translation { source, target, body: Body { mapping, others, clauses } })
}

/// The sum of two translations, or its refusal.
pub fn sum_translations(left: &Translation, right: &Translation) -> Result<Translation, Refusal> {
    let sum = unite_translations(left, right).ok_or(Refusal::Sum)?;
    require(is_within_limits(&sum), Refusal::Limit)?;
    Ok(sum)
}

/// Whether a translation and its languages are within their limits of bytes.
pub fn is_within_limits(translation: &Translation) -> bool {
    translation.source.encoded_length() <= LANGUAGE_LIMIT
        && translation.target.encoded_length() <= LANGUAGE_LIMIT
        && translation.encoded_length() <= TRANSLATION_LIMIT
}

/// The translation with the language taken from its source.
pub fn translation_without(translation: &Translation, language: &Language) -> Translation {
    let source = language_without(&translation.source, language);
    let kinds = source.kinds();
    let mut mapping = translation.body.mapping;
    for kind in (0..KINDS as u8).filter(|&kind| kinds & bit(kind) == 0) {
        mapping[kind as usize] = None;
    }
    let others = translation.body.others.iter().copied();
    let others = others.filter(|other| kinds & bit(other.kind) != 0).collect();
    let clauses = translation.body.clauses.iter();
    let stays = |clause: &Clause| find(&source.productions, clause.key, Production::key).is_some();
    let clauses = clauses.filter(stays).collect();
    let target = translation.target.clone();
    Translation { source, target, body: Body { mapping, others, clauses } }
}

/// The identity translation of a language.
pub fn identity(language: &Language) -> Translation {
    let kinds = language.kinds();
    let mut mapping = Mapping::default();
    for kind in (0..KINDS as u8).filter(|&kind| kinds & bit(kind) != 0) {
        mapping[kind as usize] = Some(kind);
    }
    let mut clauses = Clauses::default();
    let mut code = Vec::new();
    for production in &language.productions {
        code.clear();
        Symbol::Production(production.name).put(&mut code);
        let arguments = 0..production.arguments().len() as u8;
        arguments.for_each(|number| Symbol::Argument(number, 0).put(&mut code));
        clauses.push(Clause::plain(production.key(), &code));
    }
    let (source, target) = (language.clone(), language.clone());
    Translation { source, target, body: Body { mapping, clauses, ..Body::default() } }
}

/// The size of a code: its bytes, saturating, and its levels.
#[derive(Clone, Copy, Default)]
struct Size {
    bytes: u64,
    levels: u32,
}

/// How often a code uses an argument by the number of a rank, and its deepest level there.
struct Use {
    argument: u8,
    rank: u8,
    count: u64,
    deepest: u32,
}

/// The code of an outer clause, and what is needed to measure it.
struct OuterClause {
    /// The nodes, with ranks in place of the numbers of arguments.
    nodes: Vec<Node>,
    /// The bytes and levels of everything but its arguments.
    own: Size,
    uses: Vec<Use>,
}

impl OuterClause {
    /// Measures the code of a production with these nodes.
    fn new(body: &Body, production: &Production, mut nodes: Vec<Node>) -> OuterClause {
        let (mut own, mut uses) = (Size::default(), Vec::new());
        for node in &mut nodes {
            if let Symbol::Argument(argument, number) = &mut node.symbol {
                let rank = body.rank(production.arguments()[*argument as usize], *number);
                *number = rank.expect("a well-formed code") as u8;
                add_use(&mut uses, *argument, *number, node.level);
            } else {
                own.bytes += node.symbol.length();
                own.levels = (node.level - 1 + node.symbol.levels()).max(own.levels);
            }
        }
        OuterClause { nodes, own, uses }
    }

    /// The size of the code, with the size of each argument by each rank given.
    fn size(&self, argument_size: impl Fn(u8, u8) -> Size) -> Size {
        let mut size = self.own;
        for of in &self.uses {
            let argument = argument_size(of.argument, of.rank);
            let bytes = argument.bytes.saturating_mul(of.count);
            size.bytes = size.bytes.saturating_add(bytes);
            size.levels = size.levels.max(of.deepest - 1 + argument.levels);
        }
        size
    }
}

/// Counts one more use of an argument by a rank, at a level.
fn add_use(uses: &mut Vec<Use>, argument: u8, rank: u8, level: u32) {
    match uses.iter_mut().find(|of| (of.argument, of.rank) == (argument, rank)) {
        Some(of) => {
            of.count += 1;
            of.deepest = level.max(of.deepest);
        }
        None => uses.push(Use { argument, rank, count: 1, deepest: level }),
    }
}

/// Pairs a number of the inner translation with one of the outer: numbers up to this are paired.
const PAIRED_NUMBERS: u8 = 15;

/// The number of the join for one of the inner translation and one of the outer, neither above 15.
fn paired(inner: u8, outer: u8) -> u8 {
    16 * inner + outer
}

/// Runs codes of the inner translation through the outer one, by each of the outer's numbers.
struct Joiner<'a> {
    source: &'a Grammar<'a>,
    body: &'a Body,
    clauses: &'a [OuterClause],
    /// For each place of the outer source its first clause, that of number 0.
    firsts: &'a [usize],
}

impl Joiner<'_> {
    /// The outer clause for a production of the inner target, by a rank.
    fn clause(&self, kind: u8, name: u8, rank: usize) -> &OuterClause {
        let place = self.source.place(kind, name);
        let place = place.expect("the inner target lies within the outer source");
        &self.clauses[self.firsts[place] + rank]
    }

    /// The numbers of a kind in the outer translation.
    fn numbers(&self, kind: u8) -> impl Iterator<Item = u8> + '_ {
        self.body.numbers(kind).map(|(number, _)| number)
    }

    /// The sizes of the joined code, for each node and each number that its kind has; those of the
    /// whole code come first.
    fn measure(&self, nodes: &[Node]) -> Vec<Size> {
        let (mut starts, mut total) = (Vec::with_capacity(nodes.len()), 0);
        for node in nodes {
            starts.push(total);
            total += 1 + self.body.others_of(node.kind).len();
        }
        let mut sizes = vec![Size::default(); total];
        (0..nodes.len()).rev().for_each(|place| self.measure_at(nodes, &starts, place, &mut sizes));
        sizes
    }

    /// Stores the sizes of the code at a node by each number; those of its arguments are known.
    fn measure_at(&self, nodes: &[Node], starts: &[usize], place: usize, sizes: &mut [Size]) {
        let node = nodes[place];
        let mut arguments = [0; ARGUMENTS];
        fill(&mut arguments, argument_starts(nodes, place));
        for (rank, number) in self.numbers(node.kind).enumerate() {
            let of = |argument: u8, rank: u8| {
                sizes[starts[arguments[argument as usize]] + usize::from(rank)]
            };
            sizes[starts[place] + rank] = match node.symbol {
                Symbol::Production(name) => self.clause(node.kind, name, rank).size(of),
                symbol => kept_size(kept(symbol, number)),
            };
        }
    }

    /// Appends the joined code, by a number with its rank, of the code that starts at a node.
    fn write(&self, nodes: &[Node], start: usize, rank: usize, output: &mut Vec<u8>) {
        let node = nodes[start];
        let Symbol::Production(name) = node.symbol else {
            let number = self.numbers(node.kind).nth(rank).expect("the kind has the number");
            return kept(node.symbol, number).put(output);
        };
        let mut arguments = [0; ARGUMENTS];
        fill(&mut arguments, argument_starts(nodes, start));
        for outer in &self.clause(node.kind, name, rank).nodes {
            match outer.symbol {
                Symbol::Argument(argument, rank) => {
                    self.write(nodes, arguments[argument as usize], rank as usize, output);
                }
                symbol => symbol.put(output),
            }
        }
    }
}

/// A symbol that is no production as the join has it, where the outer translation comes on it by a
/// number.
fn kept(symbol: Symbol, outer: u8) -> Symbol {
    match symbol {
        Symbol::Argument(argument, inner) => Symbol::Argument(argument, paired(inner, outer)),
        symbol => symbol,
    }
}

/// The size of a symbol that is no production.
fn kept_size(symbol: Symbol) -> Size {
    Size { bytes: symbol.length(), levels: symbol.levels() }
}

/// Stores places in order.
fn fill(places: &mut [usize; ARGUMENTS], list: impl Iterator<Item = usize>) {
    places.iter_mut().zip(list).for_each(|(place, found)| *place = found);
}

/// Where the arguments of a node start, in order.
fn argument_starts(nodes: &[Node], start: usize) -> impl Iterator<Item = usize> + '_ {
    let mut next = start + 1;
    std::iter::from_fn(move || {
        let place = next;
        if place == nodes[start].end {
            return None;
        }
        next = nodes[place].end;
        Some(place)
    })
}

/// The nodes of each code of a translation, in the order of its clauses.
fn clause_nodes(translation: &Translation) -> Vec<Vec<Node>> {
    let target = Grammar::new(&translation.target);
    let clauses = translation.due_clauses().zip(translation.body.clauses.iter());
    clauses.map(|((_, _, kind), clause)| nodes(&target, kind, clause.code)).collect()
}

/// The mapping of the inner translation by number 0 followed by that of the outer one.
fn chain_mappings(outer: &Translation, inner: &Translation) -> Mapping {
    inner.body.mapping.map(|kind| kind.map(|kind| outer.mapped(kind)))
}

/// The mappings by each number of the inner translation followed by each of the outer one, but for
/// those by 0 and 0.
fn chain_others(outer: &Translation, inner: &Translation) -> Vec<Numbered> {
    let mut others = Vec::new();
    if inner.body.is_plain() && outer.body.is_plain() {
        return others;
    }
    for kind in 0..KINDS as u8 {
        for (first, between) in inner.body.numbers(kind) {
            for (second, target) in outer.body.numbers(between) {
                others.push(Numbered { kind, number: paired(first, second), target });
            }
        }
    }
    others.retain(|other| other.number != 0);
    others
}

/// The codes of a join's operands, taken apart.
struct JoinCodes {
    outer: Vec<OuterClause>,
    firsts: Vec<usize>,
    inner: Vec<Vec<Node>>,
}

impl JoinCodes {
    /// Takes apart the codes of two translations that fit.
    fn new(outer: &Translation, inner: &Translation) -> JoinCodes {
        let clauses = outer.due_clauses().zip(clause_nodes(outer));
        let clause = |((production, ..), nodes): ((&Production, _, _), _)| {
            OuterClause::new(&outer.body, production, nodes)
        };
        let firsts = outer.due_clauses().enumerate();
        let firsts = firsts.filter(|(_, (_, number, _))| *number == 0).map(|(place, _)| place);
        JoinCodes {
            outer: clauses.map(clause).collect(),
            firsts: firsts.collect(),
            inner: clause_nodes(inner),
        }
    }

    /// The bytes of the join, saturating, and the most levels of its codes.
    fn size(&self, joiner: &Joiner, outer: &Translation, inner: &Translation) -> Size {
        let (mapping, others) = (chain_mappings(outer, inner), chain_others(outer, inner));
        let body = Body { mapping, others, clauses: Clauses::default() };
        let bytes = inner.source.encoded_length() + outer.target.encoded_length();
        let bytes = 2 * HEADER + bytes + body.encoded_length();
        let mut total = Size { bytes: bytes as u64, levels: 0 };
        for ((_, number, kind), nodes) in inner.due_clauses().zip(&self.inner) {
            for (outer, size) in joiner.numbers(kind).zip(joiner.measure(nodes)) {
                let own = CLAUSE_BYTES + u64::from(paired(number, outer) != 0);
                total.bytes = total.bytes.saturating_add(size.bytes).saturating_add(own);
                total.levels = size.levels.max(total.levels);
            }
        }
        total
    }

    /// The clauses of the join.
    fn write(&self, joiner: &Joiner, inner: &Translation) -> Clauses {
        let mut clauses = Clauses::default();
        let mut code = Vec::new();
        for ((production, number, kind), nodes) in inner.due_clauses().zip(&self.inner) {
            for (rank, outer) in joiner.numbers(kind).enumerate() {
                code.clear();
                joiner.write(nodes, 0, rank, &mut code);
                let (key, number) = (production.key(), paired(number, outer));
                clauses.push(Clause { key, number, code: &code });
            }
        }
        clauses
    }

    /// What runs the inner codes through the outer ones.
    fn joiner<'a>(&'a self, source: &'a Grammar<'a>, outer: &'a Translation) -> Joiner<'a> {
        Joiner { source, body: &outer.body, clauses: &self.outer, firsts: &self.firsts }
    }
}

/// The bytes of a field 23 without a code.
const CLAUSE_BYTES: u64 = 5;

/// Whether some number of a translation is too high to be paired.
pub fn has_high_number(translation: &Translation) -> bool {
    translation.body.others.iter().any(|other| other.number > PAIRED_NUMBERS)
}

/// The join of two translations of which the inner runs first, or its refusal.
pub fn join(outer: &Translation, inner: &Translation) -> Result<Translation, Refusal> {
    require(!has_high_number(outer) && !has_high_number(inner), Refusal::Number)?;
    require(is_within(&inner.target, &outer.source), Refusal::Join)?;
    let codes = JoinCodes::new(outer, inner);
    let source = Grammar::new(&outer.source);
    let joiner = codes.joiner(&source, outer);
    let Size { bytes, levels } = codes.size(&joiner, outer, inner);
    let within = bytes <= TRANSLATION_LIMIT as u64 && levels <= CODE_LEVELS;
    require(within, Refusal::Limit)?;
    let clauses = codes.write(&joiner, inner);
    let (mapping, others) = (chain_mappings(outer, inner), chain_others(outer, inner));
    let body = Body { mapping, others, clauses };
    Ok(Translation { source: inner.source.clone(), target: outer.target.clone(), body })
}

/// The bytes and levels of the join of two translations that fit, measured without writing it.
pub fn join_size(outer: &Translation, inner: &Translation) -> (u64, u32) {
    let codes = JoinCodes::new(outer, inner);
    let source = Grammar::new(&outer.source);
    let size = codes.size(&codes.joiner(&source, outer), outer, inner);
    (size.bytes, size.levels)
}
