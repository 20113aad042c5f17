//! Faults that show when a term is worked out: the first sign whose operands all have values and
//! which has none itself.

use super::body::Between;
use super::differences::{join_fault, language_sum_fault, size_fault, translation_sum_fault};
use super::pack::Parts;
use super::{Fault, Sign};
use crate::outcome::Refusal;
use crate::pack::Pack;
use crate::reduce::Reducer;
use crate::term::{LanguageTerm, TranslationTerm};

/// A term of either sort.
#[derive(Clone, Copy)]
enum Term<'a> {
    Language(&'a LanguageTerm),
    Translation(&'a TranslationTerm),
}

/// A term that is searched, its sign, and the operand numbers that lead to it.
struct Node<'a> {
    term: Term<'a>,
    sign: &'a Sign,
    path: Vec<usize>,
}

/// Looks for the sign of the pack's term that is refused.
pub fn check_values(pack: &Pack, parts: &Parts, sign: &Sign) -> Result<(), Fault> {
    let mut reducer = Reducer::new(pack);
    let node = Node { term: Term::Translation(&pack.term), sign, path: vec![] };
    match node.term.refusal(&mut reducer) {
        None => Ok(()),
        Some(_) => Err(node.search(&mut reducer, parts)),
    }
}

impl<'a> Term<'a> {
    /// Why the term is refused, if it is.
    fn refusal(self, reducer: &mut Reducer) -> Option<Refusal> {
        match self {
            Term::Language(term) => reducer.language(term).err(),
            Term::Translation(term) => reducer.translation(term).err(),
        }
    }

    /// The operands in order.
    fn operands(self) -> Vec<Term<'a>> {
        match self {
            Term::Language(term) => language_operands(term),
            Term::Translation(term) => translation_operands(term),
        }
    }
}

/// The operands of a language term in order.
fn language_operands(term: &LanguageTerm) -> Vec<Term<'_>> {
    use LanguageTerm::*;
    match term {
        Constant(_) | Variable(_) => vec![],
        Without(first, second) | Sum(first, second) | LetLanguage(_, first, second) => {
            vec![Term::Language(first), Term::Language(second)]
        }
        Source(of) | Target(of) => vec![Term::Translation(of)],
        LetTranslation(_, value, within) => vec![Term::Translation(value), Term::Language(within)],
    }
}

/// The operands of a translation term in order.
fn translation_operands(term: &TranslationTerm) -> Vec<Term<'_>> {
    use TranslationTerm::*;
    match term {
        Variable(_) => vec![],
        Body(source, target, _) => vec![Term::Language(source), Term::Language(target)],
        Without(first, second) => vec![Term::Translation(first), Term::Language(second)],
        Sum(first, second) | Join(first, second) | LetTranslation(_, first, second) => {
            vec![Term::Translation(first), Term::Translation(second)]
        }
        Identity(of) => vec![Term::Language(of)],
        LetLanguage(_, value, within) => vec![Term::Language(value), Term::Translation(within)],
    }
}

impl<'a> Node<'a> {
    /// The operand at a place.
    fn operand(&self, place: usize) -> Node<'a> {
        let term = self.term.operands()[place];
        let path = [&self.path[..], &[place + 1]].concat();
        Node { term, sign: &self.sign.operands[place], path }
    }

    /// The fault of a term that is refused.
    fn search(&self, reducer: &mut Reducer, parts: &Parts) -> Fault {
        let within = |reducer: &mut Reducer| Ok(self.operand(1).search(reducer, parts));
        let fault = match self.term {
            Term::Language(LanguageTerm::LetLanguage(number, value, _))
            | Term::Translation(TranslationTerm::LetLanguage(number, value, _)) => {
                reducer.with_language(*number, value, within).ok()
            }
            Term::Language(LanguageTerm::LetTranslation(number, value, _))
            | Term::Translation(TranslationTerm::LetTranslation(number, value, _)) => {
                reducer.with_translation(*number, value, within).ok()
            }
            _ => None,
        };
        fault.unwrap_or_else(|| self.search_operands(reducer, parts))
    }

    /// The fault of the first operand that is refused, or else of the sign itself.
    fn search_operands(&self, reducer: &mut Reducer, parts: &Parts) -> Fault {
        let mut operands = (0..self.sign.operands.len()).map(|place| self.operand(place));
        match operands.find(|operand| operand.term.refusal(reducer).is_some()) {
            Some(operand) => operand.search(reducer, parts),
            None => self.own_fault(reducer, parts),
        }
    }

    /// The fault of a sign whose operands have values.
    fn own_fault(&self, reducer: &mut Reducer, parts: &Parts) -> Fault {
        if let Term::Translation(TranslationTerm::Body(source, target, body)) = self.term {
            let values = (reducer.language(source), reducer.language(target));
            if let (Ok(source), Ok(target)) = values {
                let between = Between::new(&source, &target, &parts.bodies[*body]);
                if let Err(fault) = between.check() {
                    return Fault { within: [self.place(), fault.within].concat(), ..fault };
                }
            }
        }
        let reason = self.term.refusal(reducer).unwrap_or(Refusal::Limit);
        let what = self.what(reducer, reason);
        let fault = parts.term.fault(reason, self.sign.at, what);
        Fault { within: [fault.within, self.place()].concat(), ..fault }
    }

    /// The sign, and which operand of the term it is.
    fn place(&self) -> Vec<String> {
        let sign = format!("sign {:02X} ({})", self.sign.sign, self.sign.meaning());
        let path: Vec<String> = self.path.iter().map(usize::to_string).collect();
        match path.is_empty() {
            true => vec![sign],
            false => vec![sign, format!("operand {}", path.join("."))],
        }
    }

    /// What is wrong with a sign whose operands have values.
    fn what(&self, reducer: &mut Reducer, reason: Refusal) -> String {
        let found = match (self.term, reason) {
            (_, Refusal::Unbound) => Some("the variable has no value".to_string()),
            (Term::Language(LanguageTerm::Sum(first, second)), _) => {
                let values = (reducer.language(first), reducer.language(second));
                pair(values).and_then(|(first, second)| language_sum_fault(&first, &second))
            }
            (Term::Translation(TranslationTerm::Sum(first, second)), _) => {
                let values = (reducer.translation(first), reducer.translation(second));
                pair(values).and_then(|(first, second)| translation_sum_fault(&first, &second))
            }
            (Term::Translation(TranslationTerm::Join(outer, inner)), _) => {
                let values = (reducer.translation(outer), reducer.translation(inner));
                pair(values).and_then(|(outer, inner)| join_fault(&outer, &inner))
            }
            (Term::Translation(TranslationTerm::Body(source, target, body)), _) => {
                let values = (reducer.language(source), reducer.language(target));
                pair(values)
                    .map(|(source, target)| size_fault(&source, &target, &reducer.bodies[*body]))
            }
            _ => None,
        };
        found.unwrap_or_else(|| "it has no value".to_string())
    }
}

/// Both values, if there are both.
fn pair<T, E>(values: (Result<T, E>, Result<T, E>)) -> Option<(T, T)> {
    Some((values.0.ok()?, values.1.ok()?))
}
