//! The productions of a language that was accepted.

use crate::write::PRODUCTION_TAG;
use crate::{Kind, Language};

/// The productions of a language, by rising result and name.
#[derive(Clone, Debug, PartialEq, Eq, Hash)]
pub(crate) struct Grammar<'a> {
    productions: Vec<Production<'a>>,
}

/// A production: result, name, and the kinds of its arguments.
#[derive(Clone, Copy, Debug, PartialEq, Eq, Hash)]
struct Production<'a> {
    key: (u8, u8),
    arguments: &'a [u8],
}

impl<'a> Grammar<'a> {
    /// The productions of a language that was accepted: its fields are whole, and rise.
    pub(crate) fn of(language: Language<'a>) -> Grammar<'a> {
        let (mut productions, mut rest) = (vec![], language.0);
        while let &[tag, high, low, ref behind @ ..] = rest {
            let (contents, next) = behind.split_at(u16::from_be_bytes([high, low]).into());
            if let (PRODUCTION_TAG, &[result, name, ref arguments @ ..]) = (tag, contents) {
                productions.push(Production { key: (result, name), arguments });
            }
            rest = next;
        }
        Grammar { productions }
    }

    /// The kinds of the arguments of a production, if the kind has one by that name. A token's kind
    /// has none.
    pub(crate) fn arguments(&self, kind: Kind, name: u8) -> Option<&'a [u8]> {
        let key = (u8::try_from(kind.0).ok()?, name);
        let place =
            self.productions.binary_search_by_key(&key, |production| production.key).ok()?;
        Some(self.productions[place].arguments)
    }
}

#[cfg(test)]
mod tests {
    use super::*;
    use crate::write::LanguageBuilder;

    #[test]
    fn productions_are_found_by_kind_and_name() {
        let (one, two) = (Kind(1), Kind(2));
        let language = LanguageBuilder::new()
            .class(two, 1..=240)
            .class_in_steps(Kind(3), 1..=9, 2)
            .production(one, 0, &[])
            .production(one, 255, &[one, two])
            .production(Kind(31), 7, &[Kind(3); 8])
            .build()
            .expect("a language");
        let grammar = Grammar::of(Language(&language));
        assert_eq!(grammar.arguments(one, 0), Some(&[][..]));
        assert_eq!(grammar.arguments(one, 255), Some(&[1, 2][..]));
        assert_eq!(grammar.arguments(Kind(31), 7), Some(&[3; 8][..]));
        for (kind, name) in [(one, 1), (two, 0), (two, 1), (Kind(0), 0), (Kind(257), 0)] {
            assert_eq!(grammar.arguments(kind, name), None, "{kind}.{name}");
        }
        assert_eq!(Grammar::of(Language(&[])).arguments(one, 0), None);
    }
}
