//! Why operands do not fit together, and by how much a value exceeds its limit.

use super::language::kind_in;
use crate::body::{Body, Clause};
use crate::code::CODE_LEVELS;
use crate::language::{bit, Class, Language, Production, KINDS, LANGUAGE_LIMIT};
use crate::operators::{has_high_number, join_size, unite_languages, unite_translations};
use crate::translation::{Translation, TRANSLATION_LIMIT};

/// The class of a kind.
fn class_of(language: &Language, kind: u8) -> Option<&Class> {
    language.classes.iter().find(|class| class.kind == kind)
}

/// The production with the key of another.
fn alike<'a>(language: &'a Language, production: &Production) -> Option<&'a Production> {
    language.productions.iter().find(|other| other.key() == production.key())
}

/// The first kind in a set.
fn first_kind(kinds: u32) -> Option<u8> {
    (0..KINDS as u8).find(|&kind| kinds & bit(kind) != 0)
}

/// Why two languages have no sum, or one that is too long.
pub fn language_sum_fault(first: &Language, second: &Language) -> Option<String> {
    language_difference(first, second).or_else(|| {
        let bytes = unite_languages(first, second)?.encoded_length();
        Some(format!("the sum has {bytes} bytes, more than {LANGUAGE_LIMIT}"))
    })
}

/// What two languages do not agree on.
fn language_difference(first: &Language, second: &Language) -> Option<String> {
    let clash =
        first.class_kinds() & second.result_kinds() | first.result_kinds() & second.class_kinds();
    if let Some(kind) = first_kind(clash) {
        return Some(format!("kind {kind} is a class in one and a result in the other"));
    }
    class_difference(first, second).or_else(|| production_difference(first, second))
}

/// A class that two languages give different ranges.
fn class_difference(first: &Language, second: &Language) -> Option<String> {
    first.classes.iter().find_map(|class| {
        let other = class_of(second, class.kind).filter(|other| *other != class)?;
        let (one, other) = (class.range(), other.range());
        Some(format!("class {} is {one} in the first and {other} in the second", class.kind))
    })
}

/// A production to which two languages give different arguments.
fn production_difference(first: &Language, second: &Language) -> Option<String> {
    first.productions.iter().find_map(|production| {
        let other = alike(second, production).filter(|other| *other != production)?;
        Some(format!(
            "production {} has the arguments {} in the first and {} in the second",
            production.title(),
            production.argument_list(),
            other.argument_list()
        ))
    })
}

/// Why two translations have no sum, or one that is too long.
pub fn translation_sum_fault(first: &Translation, second: &Translation) -> Option<String> {
    let sources = language_difference(&first.source, &second.source);
    let targets = || language_difference(&first.target, &second.target);
    sources
        .map(|what| format!("in the sources, {what}"))
        .or_else(|| targets().map(|what| format!("in the targets, {what}")))
        .or_else(|| mapping_difference(first, second))
        .or_else(|| clause_difference(first, second))
        .or_else(|| sum_size_fault(first, second))
}

/// A kind that two translations map differently.
fn mapping_difference(first: &Translation, second: &Translation) -> Option<String> {
    let mappings = first.body.mapping.iter().zip(&second.body.mapping).enumerate();
    mappings.into_iter().find_map(|(kind, mapped)| match mapped {
        (Some(one), Some(other)) if one != other => Some(format!(
            "kind {kind} is mapped to {one} in the first and to {other} in the second"
        )),
        (Some(_), Some(_)) => number_difference(&first.body, &second.body, kind as u8),
        _ => None,
    })
}

/// A number of a kind that is mapped in both, by which they differ.
fn number_difference(first: &Body, second: &Body, kind: u8) -> Option<String> {
    let differs = |number: &u8| first.mapped(kind, *number) != second.mapped(kind, *number);
    let number = (1..=u8::MAX).find(differs)?;
    let to = |body: &Body| match body.mapped(kind, number) {
        Some(target) => format!("mapped to {target}"),
        None => "not mapped".to_string(),
    };
    let (one, other) = (to(first), to(second));
    Some(format!("by number {number} kind {kind} is {one} in the first and {other} in the second"))
}

/// A production to which two translations give different codes.
fn clause_difference(first: &Translation, second: &Translation) -> Option<String> {
    let differs = |one: &Clause| {
        let mut others = second.body.clauses.iter();
        others.any(|other| other.place() == one.place() && other.code != one.code)
    };
    let clause = first.body.clauses.iter().find(differs)?;
    let [result, name] = clause.key.to_be_bytes();
    let number = if clause.number == 0 { String::new() } else { format!(".{}", clause.number) };
    Some(format!("clause {result}.{name}{number} has different codes"))
}

/// By how much the sum of two translations is too long.
fn sum_size_fault(first: &Translation, second: &Translation) -> Option<String> {
    let sum = unite_translations(first, second)?;
    let languages = [("source", &sum.source), ("target", &sum.target)];
    let long = languages.into_iter().find(|(_, of)| of.encoded_length() > LANGUAGE_LIMIT);
    Some(match long {
        Some((name, language)) => {
            let bytes = language.encoded_length();
            format!("the {name} of the sum has {bytes} bytes, more than {LANGUAGE_LIMIT}")
        }
        None => too_long("sum", sum.encoded_length() as u64),
    })
}

/// Why two translations have no join, or one that exceeds a limit; the inner one runs first.
pub fn join_fault(outer: &Translation, inner: &Translation) -> Option<String> {
    high_number(outer, inner)
        .or_else(|| outside(outer, inner))
        .or_else(|| join_size_fault(outer, inner))
}

/// What keeps the second operand's target from lying within the first's source, and whether the
/// operands would fit the other way round.
fn outside(outer: &Translation, inner: &Translation) -> Option<String> {
    let found = |target: &Language, source: &Language| {
        class_outside(target, source).or_else(|| production_outside(target, source))
    };
    let what = found(&inner.target, &outer.source)?;
    Some(match found(&outer.target, &inner.source) {
        None => format!("{what}; the other way round the operands fit"),
        Some(_) => what,
    })
}

/// A number of a join's operand that is above 15.
fn high_number(outer: &Translation, inner: &Translation) -> Option<String> {
    let mut named = [("first", outer), ("second", inner)].into_iter();
    let (name, operand) = named.find(|(_, operand)| has_high_number(operand))?;
    let highest = operand.body.others.iter().max_by_key(|other| other.number)?;
    let (kind, number) = (highest.kind, highest.number);
    Some(format!("kind {kind} of the {name} operand has number {number}, which is above 15"))
}

/// A class of the second operand's target that is not inside the first's source.
fn class_outside(target: &Language, source: &Language) -> Option<String> {
    let inside = |class: &Class| class_of(source, class.kind).is_some_and(|of| of.contains(class));
    let class = target.classes.iter().find(|class| !inside(class))?;
    let (kind, range) = (class.kind, class.range());
    let found = kind_in(source, kind);
    Some(format!("class {kind} of the second's target is {range}; the first's source has {found}"))
}

/// A production of the second operand's target that is not in the first's source.
fn production_outside(target: &Language, source: &Language) -> Option<String> {
    let inside = |production: &Production| alike(source, production) == Some(production);
    let production = target.productions.iter().find(|production| !inside(production))?;
    let (title, arguments) = (production.title(), production.argument_list());
    let found = alike(source, production).map(Production::argument_list);
    let found = found.map_or("none".to_string(), |list| format!("one with {list}"));
    Some(format!(
        "production {title} of the second's target has the arguments {arguments}; \
         the first's source has {found}"
    ))
}

/// By how much a join exceeds a limit.
fn join_size_fault(outer: &Translation, inner: &Translation) -> Option<String> {
    let (bytes, levels) = join_size(outer, inner);
    if bytes > TRANSLATION_LIMIT as u64 {
        return Some(too_long("join", bytes));
    }
    Some(format!("a code of the join has {levels} levels, more than {CODE_LEVELS}"))
}

/// By how much a translation made of its parts is too long.
pub fn size_fault(source: &Language, target: &Language, body: &Body) -> String {
    let (source, target) = (source.clone(), target.clone());
    let translation = Translation { source, target, body: body.clone() };
    too_long("translation", translation.encoded_length() as u64)
}

/// The sentence for a value of too many bytes.
fn too_long(name: &str, bytes: u64) -> String {
    let more = if bytes == u64::MAX { " or more" } else { "" };
    format!("the {name} has {bytes} bytes{more}, more than {TRANSLATION_LIMIT}")
}
