//! The earlier rule of levels, by which each token was a level too, and tests that whatever it
//! accepted gives the same bytes now. Trees are run and codes joined here by their definitions, so
//! that the rule of today is tested against them too.

use crate::body::{Body, Clause, Numbered};
use crate::code::{symbols, ArgumentKinds, Symbol};
use crate::generate::{
    reduce_case, run_case, translation_file, tree_case, Random, RunCase, TreeCase,
};
use crate::language::{read_language, Language, Production};
use crate::operators::is_within_limits;
use crate::pack::{read_pack, Pack};
use crate::reduce::{OUTPUT_LEAST, WORKSPACE_LEAST};
use crate::term::{LanguageTerm, TranslationTerm};
use crate::translation::{read_fields, Translation, TRANSLATION_LIMIT};
use crate::tree::root_kind;
use crate::{check_translation, check_tree, reduce, run};

/// A rule of levels: how many levels a token is.
#[derive(Clone, Copy)]
struct Rule {
    token: usize,
}

const EARLIER: Rule = Rule { token: 1 };
const TODAY: Rule = Rule { token: 0 };

/// The most levels of a tree and of a code.
const TREE_LEVELS: usize = 64;
const CODE_LEVELS: usize = 16;

/// The production of a kind with a name.
fn production(language: &Language, kind: u8, name: u8) -> Option<Production> {
    let mut productions = language.productions.iter();
    productions.find(|production| (production.result, production.name) == (kind, name)).copied()
}

/// Whether a value is one of the class of a kind; `None` if the kind has no class.
fn in_class(language: &Language, kind: u8, value: u16) -> Option<bool> {
    let class = language.classes.iter().find(|class| class.kind == kind)?;
    Some(class.has(value))
}

/// The kinds that the arguments of a production are mapped to.
fn mapped_arguments<'a>(
    translation: &'a Translation,
    production: &'a Production,
) -> ArgumentKinds<'a> {
    ArgumentKinds { body: &translation.body, arguments: production.arguments() }
}

impl Rule {
    /// The levels of the first tree of a kind in the bytes, and the bytes behind it, if it is legal.
    fn tree<'a>(self, language: &Language, kind: u8, tree: &'a [u8]) -> Option<(usize, &'a [u8])> {
        if let [high, low, rest @ ..] = tree {
            if let Some(inside) = in_class(language, kind, u16::from_be_bytes([*high, *low])) {
                return inside.then_some((self.token, rest));
            }
        }
        let (&name, mut rest) = tree.split_first()?;
        let mut most = 0;
        for &argument in production(language, kind, name)?.arguments() {
            let (levels, behind) = self.tree(language, argument, rest)?;
            (most, rest) = (most.max(levels), behind);
        }
        Some((most + 1, rest))
    }

    /// Whether the bytes are a legal tree of at most 64 levels.
    fn accepts_tree(self, language: &Language, root: u32, tree: &[u8]) -> bool {
        let Ok(kind) = root_kind(language, root) else { return false };
        let levels = self.tree(language, kind, tree);
        levels.is_some_and(|(levels, rest)| levels <= TREE_LEVELS && rest.is_empty())
    }

    /// The levels of the first code of a kind in the bytes, and the bytes behind it, if it is one;
    /// arguments have these kinds.
    fn code<'a>(
        self,
        target: &Language,
        arguments: &ArgumentKinds,
        kind: u8,
        code: &'a [u8],
    ) -> Option<(usize, &'a [u8])> {
        let (symbol, mut rest) = Symbol::split(code)?;
        match symbol {
            Symbol::Token(value) => (in_class(target, kind, value)?).then_some((self.token, rest)),
            Symbol::Argument(argument, number) => {
                (arguments.get(argument, number)? == kind).then_some((1, rest))
            }
            Symbol::Production(name) => {
                let mut most = 0;
                for &argument in production(target, kind, name)?.arguments() {
                    let (levels, behind) = self.code(target, arguments, argument, rest)?;
                    (most, rest) = (most.max(levels), behind);
                }
                Some((most + 1, rest))
            }
        }
    }

    /// Whether each code is of its kind and has at most 16 levels.
    fn accepts_codes(self, translation: &Translation) -> bool {
        let mut clauses = translation.due_clauses().zip(translation.body.clauses.iter());
        clauses.all(|((production, _, kind), clause)| {
            let arguments = mapped_arguments(translation, production);
            let levels = self.code(&translation.target, &arguments, kind, clause.code);
            levels.is_some_and(|(levels, rest)| levels <= CODE_LEVELS && rest.is_empty())
        })
    }

    /// Whether a translation is well formed.
    fn accepts(self, translation: &Translation) -> bool {
        translation.maps_as_required()
            && translation.has_all_clauses()
            && self.accepts_codes(translation)
    }

    /// The join of two translations, if it is accepted.
    fn joined(self, outer: &Translation, inner: &Translation) -> Option<Translation> {
        if !fits(outer, inner) {
            return None;
        }
        let mut body = Body { others: joined_numbers(outer, inner), ..Body::default() };
        body.mapping = inner.body.mapping.map(|kind| kind.map(|kind| outer.mapped(kind)));
        for production in &inner.source.productions {
            let join = Join { outer, inner, arguments: mapped_arguments(inner, production) };
            for (one, other) in pairs_of_numbers() {
                let Some(kind) = inner.body.mapped(production.result, one) else { continue };
                if outer.body.mapped(kind, other).is_some() {
                    let (mut code, number) = (Vec::new(), one << 4 | other);
                    join.put(kind, other, clause_of(inner, production, one).code, &mut code)?;
                    body.clauses.push(Clause { key: production.key(), number, code: &code });
                }
            }
        }
        let (source, target) = (inner.source.clone(), outer.target.clone());
        let value = Translation { source, target, body };
        (self.accepts(&value) && is_within_limits(&value)).then_some(value)
    }

    /// The value of a term of joins and of bodies between constants, if it is accepted.
    fn value(self, pack: &Pack, term: &TranslationTerm) -> Option<Translation> {
        let constant = |term: &LanguageTerm| match term {
            LanguageTerm::Constant(number) => Some(Language::clone(&pack.languages[*number])),
            _ => None,
        };
        match term {
            TranslationTerm::Body(source, target, body) => {
                let (source, target) = (constant(source)?, constant(target)?);
                let value = Translation { source, target, body: pack.bodies[*body].clone() };
                (self.accepts(&value) && is_within_limits(&value)).then_some(value)
            }
            TranslationTerm::Join(outer, inner) => {
                self.joined(&self.value(pack, outer)?, &self.value(pack, inner)?)
            }
            _ => None,
        }
    }
}

/// The numbers that an operand of a join may have.
fn all_numbers() -> std::ops::RangeInclusive<u8> {
    0..=15
}

/// Each number of one operand with each of the other, by rising order of the join's number.
fn pairs_of_numbers() -> impl Iterator<Item = (u8, u8)> {
    all_numbers().flat_map(|one| all_numbers().map(move |other| (one, other)))
}

/// The mappings of a join by other numbers than 0.
fn joined_numbers(outer: &Translation, inner: &Translation) -> Vec<Numbered> {
    let kinds = (0..32).flat_map(|kind| pairs_of_numbers().map(move |pair| (kind, pair)));
    let numbered = |(kind, (one, other))| {
        let target = outer.body.mapped(inner.body.mapped(kind, one)?, other)?;
        Some(Numbered { kind, number: one << 4 | other, target })
    };
    kinds.filter_map(numbered).filter(|numbered| numbered.number > 0).collect()
}

/// The clause for a production by a number.
fn clause_of<'a>(translation: &'a Translation, production: &Production, number: u8) -> Clause<'a> {
    let mut clauses = translation.body.clauses.iter();
    let place = (production.key(), number);
    clauses.find(|clause| clause.place() == place).expect("each production has a clause")
}

/// Where each of the arguments starts, and the bytes behind them, by a function that skips one.
fn split_arguments<'a>(
    kinds: &[u8],
    mut rest: &'a [u8],
    skip: impl Fn(u8, &'a [u8]) -> &'a [u8],
) -> (Vec<&'a [u8]>, &'a [u8]) {
    let mut starts = Vec::new();
    for &kind in kinds {
        starts.push(rest);
        rest = skip(kind, rest);
    }
    (starts, rest)
}

/// What was run so far: the bytes, and how many clauses were applied.
#[derive(Default)]
struct Ran {
    bytes: Vec<u8>,
    clauses: u32,
}

/// Appends the run, by a number, of the first legal tree of a kind in the bytes; gives up beyond a
/// length.
fn put_run(
    translation: &Translation,
    kind: u8,
    number: u8,
    tree: &[u8],
    most: usize,
    output: &mut Ran,
) -> Option<()> {
    let source = &translation.source;
    if source.classes.iter().any(|class| class.kind == kind) {
        output.bytes.extend_from_slice(&tree[..2]);
        return Some(());
    }
    output.clauses += 1;
    let production = production(source, kind, tree[0]).expect("a legal tree");
    let skip = |kind, rest| TODAY.tree(source, kind, rest).expect("a legal tree").1;
    let (starts, _) = split_arguments(production.arguments(), &tree[1..], skip);
    for symbol in symbols(clause_of(translation, &production, number).code) {
        if output.bytes.len() > most {
            return None;
        }
        match symbol {
            Symbol::Production(name) => output.bytes.push(name),
            Symbol::Token(value) => output.bytes.extend_from_slice(&value.to_be_bytes()),
            Symbol::Argument(argument, number) => {
                let argument = argument as usize;
                let (kind, start) = (production.arguments()[argument], starts[argument]);
                put_run(translation, kind, number, start, most, output)?;
            }
        }
    }
    Some(())
}

/// A join: the first, the second, and the production of the second whose code is joined.
struct Join<'a> {
    outer: &'a Translation,
    inner: &'a Translation,
    arguments: ArgumentKinds<'a>,
}

impl Join<'_> {
    /// Appends the first code of a kind in the bytes run through the first translation by a number;
    /// gives up beyond the limit of bytes.
    fn put(&self, kind: u8, number: u8, code: &[u8], output: &mut Vec<u8>) -> Option<()> {
        let (symbol, rest) = Symbol::split(code)?;
        if let Symbol::Argument(argument, inner) = symbol {
            Symbol::Argument(argument, inner << 4 | number).put(output);
            return Some(());
        }
        let Symbol::Production(name) = symbol else {
            symbol.put(output);
            return Some(());
        };
        let target = &self.inner.target;
        let production = production(target, kind, name)?;
        let skip = |kind, rest| {
            TODAY.code(target, &self.arguments, kind, rest).expect("a well-formed code").1
        };
        let (starts, _) = split_arguments(production.arguments(), rest, skip);
        for symbol in symbols(clause_of(self.outer, &production, number).code) {
            if output.len() > TRANSLATION_LIMIT {
                return None;
            }
            match symbol {
                Symbol::Argument(argument, number) => {
                    let argument = argument as usize;
                    self.put(production.arguments()[argument], number, starts[argument], output)?;
                }
                symbol => symbol.put(output),
            }
        }
        Some(())
    }
}

/// Whether no number is above 15, and the target of the second lies within the source of the first.
fn fits(outer: &Translation, inner: &Translation) -> bool {
    let (source, target) = (&outer.source, &inner.target);
    let low = |operand: &Translation| {
        operand.body.others.iter().all(|other| all_numbers().contains(&other.number))
    };
    low(outer)
        && low(inner)
        && target.classes.iter().all(|class| {
            let mut classes = source.classes.iter();
            classes.any(|wider| wider.kind == class.kind && wider.contains(class))
        })
        && target.productions.iter().all(|production| source.productions.contains(production))
}

/// Whether a term is made of joins and of bodies between constants.
fn is_of_joins(term: &TranslationTerm) -> bool {
    let constant = |term: &LanguageTerm| matches!(term, LanguageTerm::Constant(_));
    match term {
        TranslationTerm::Body(source, target, _) => constant(source) && constant(target),
        TranslationTerm::Join(outer, inner) => is_of_joins(outer) && is_of_joins(inner),
        _ => false,
    }
}

/// What a case showed: whether each rule accepts it, and the number that is given.
struct Shown {
    earlier: bool,
    today: bool,
    number: u32,
}

/// Calls a test so many times. What is accepted must be what today's rule accepts, and that must
/// be whatever the earlier rule accepted, often the same and sometimes more.
fn compare(cases: usize, more: usize, mut test: impl FnMut(&mut Random) -> Option<Shown>) {
    let mut random = Random::new(71);
    let (mut both, mut new) = (0, 0);
    for case in 0..cases {
        if let Some(Shown { earlier, today, number }) = test(&mut random) {
            assert_eq!(today, number == 0, "case {case}");
            assert!(today || !earlier, "case {case}");
            both += usize::from(earlier);
            new += usize::from(today && !earlier);
        }
    }
    assert!(both > cases / 20 && new > more, "{both} and {new} of {cases}");
}

#[test]
fn trees_accepted_earlier_are_accepted() {
    compare(20_000, 200, |random| {
        let TreeCase { language, root, tree } = tree_case(random);
        let number = check_tree(&language, root, &tree).number();
        let language = read_language(&language).ok()?;
        let [earlier, today] =
            [EARLIER, TODAY].map(|rule| rule.accepts_tree(&language, root, &tree));
        Some(Shown { earlier, today, number })
    });
}

#[test]
fn translations_accepted_earlier_are_accepted() {
    compare(20_000, 100, |random| {
        let file = translation_file(random);
        let value = read_fields(&file).ok()?;
        let [earlier, today] = [EARLIER, TODAY].map(|rule| rule.accepts(&value));
        Some(Shown { earlier, today, number: check_translation(&file).number() })
    });
}

/// The result of a run by a rule, if it is accepted.
fn ran(rule: Rule, case: &RunCase) -> Option<Ran> {
    let value = read_fields(&case.translation).ok()?;
    if !rule.accepts(&value) || !rule.accepts_tree(&value.source, case.root, &case.tree) {
        return None;
    }
    let mut result = Ran::default();
    let kind = case.root as u8;
    let number = u8::try_from(case.number).ok()?;
    value.body.mapped(kind, number)?;
    put_run(&value, kind, number, &case.tree, case.output, &mut result)?;
    (result.bytes.len() <= case.output).then_some(result)
}

#[test]
fn runs_accepted_earlier_give_the_same_bytes() {
    compare(20_000, 200, |random| {
        let case = run_case(random);
        let mut output = vec![0xEE; case.output];
        let outcome = run(&case.translation, case.root, case.number, &case.tree, &mut output);
        let [earlier, today] = [EARLIER, TODAY].map(|rule| ran(rule, &case));
        for result in [&earlier, &today].into_iter().flatten() {
            assert_eq!(outcome.length(), result.bytes.len() as u64);
            assert!(output.starts_with(&result.bytes));
            assert_eq!(outcome.cost, result.clauses);
        }
        let (earlier, today) = (earlier.is_some(), today.is_some());
        Some(Shown { earlier, today, number: outcome.number() })
    });
}

#[test]
fn reductions_accepted_earlier_give_the_same_bytes() {
    compare(20_000, 100, |random| {
        let bytes = reduce_case(random).pack;
        let pack = read_pack(&bytes).ok().filter(|pack| is_of_joins(&pack.term))?;
        let (mut workspace, mut output) = (vec![1; WORKSPACE_LEAST], vec![2; OUTPUT_LEAST]);
        let outcome = reduce(&bytes, &mut workspace, &mut output);
        let [earlier, today] = [EARLIER, TODAY].map(|rule| rule.value(&pack, &pack.term));
        for value in [&earlier, &today].into_iter().flatten() {
            assert_eq!(output[..outcome.length() as usize], value.encode());
        }
        let (earlier, today) = (earlier.is_some(), today.is_some());
        Some(Shown { earlier, today, number: outcome.number() })
    });
}
