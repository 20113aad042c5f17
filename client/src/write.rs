//! Languages and trees put together in words.
//!
//! A tree is written from its tokens outward. What comes of it may be no tree of a language, or a
//! tree of many: the operations tell.
//!
//! ```
//! use algebra::write::{production, token, LanguageBuilder};
//! use algebra::{check_tree, Kind, Language, Tree};
//!
//! const BLOCK: Kind = Kind(1);
//! const MINUTES: Kind = Kind(2);
//! const ROW: u8 = 1;
//! const SEQUENCE: u8 = 2;
//!
//! let strap = LanguageBuilder::new()
//!     .class(MINUTES, 1..=240)
//!     .production(BLOCK, ROW, &[MINUTES])
//!     .production(BLOCK, SEQUENCE, &[BLOCK, BLOCK])
//!     .build()?;
//! // A row of 5 minutes, then one of 7.
//! let session = production(SEQUENCE, [production(ROW, [token(5)]), production(ROW, [token(7)])]);
//! check_tree(Language(&strap), BLOCK, Tree(&session))?;
//! # Ok::<(), algebra::Refusal>(())
//! ```

use crate::{check_language, Kind, Language, Refusal, ARGUMENTS};
use std::ops::RangeInclusive;

/// The tags of a language's fields.
const CLASS_TAG: u8 = 0x11;
pub(crate) const PRODUCTION_TAG: u8 = 0x12;

/// The bytes of a token.
///
/// ```
/// assert_eq!(algebra::write::token(240), [0, 240]);
/// ```
pub fn token(value: u16) -> Vec<u8> {
    value.to_be_bytes().to_vec()
}

/// The bytes of a token of a loose plan, with its least and its greatest value.
///
/// ```
/// assert_eq!(algebra::write::loose_token(20, 30), [0, 20, 0, 30]);
/// ```
pub fn loose_token(least: u16, greatest: u16) -> Vec<u8> {
    [least.to_be_bytes(), greatest.to_be_bytes()].concat()
}

/// The bytes of a production by its name, with those of its arguments.
///
/// ```
/// use algebra::write::{production, token};
///
/// const ROW: u8 = 1;
/// const SEQUENCE: u8 = 2;
/// let rows = [5, 7].map(|minutes| production(ROW, [token(minutes)]));
/// assert_eq!(production(SEQUENCE, rows), [SEQUENCE, ROW, 0, 5, ROW, 0, 7]);
/// ```
pub fn production(name: u8, arguments: impl IntoIterator<Item = Vec<u8>>) -> Vec<u8> {
    let mut bytes = vec![name];
    arguments.into_iter().for_each(|argument| bytes.extend(argument));
    bytes
}

/// Writes a language, entry by entry: classes by rising kind, then productions by rising result and
/// name. Nothing is sorted; whether it is a language is asked at the end.
///
/// ```
/// use algebra::write::LanguageBuilder;
/// use algebra::{Kind, Refusal};
///
/// const BLOCK: Kind = Kind(1);
/// const MINUTES: Kind = Kind(2);
/// const ROW: u8 = 1;
/// const SEQUENCE: u8 = 2;
/// const REST: u8 = 3;
///
/// let strap = LanguageBuilder::new()
///     .class(MINUTES, 1..=240)
///     .production(BLOCK, ROW, &[MINUTES])
///     .production(BLOCK, SEQUENCE, &[BLOCK, BLOCK])
///     .production(BLOCK, REST, &[MINUTES])
///     .build()?;
/// assert_eq!(strap, include_bytes!("../../examples/strap/strap.language"));
///
/// // A kind is a class or a result, and not both.
/// let both = LanguageBuilder::new().class(BLOCK, 1..=240).production(BLOCK, ROW, &[]).build();
/// assert_eq!(both, Err(Refusal::ClassIsResult));
/// # Ok::<(), Refusal>(())
/// ```
#[derive(Clone, Debug, Default, PartialEq, Eq, Hash)]
#[must_use]
pub struct LanguageBuilder {
    bytes: Vec<u8>,
}

impl LanguageBuilder {
    /// The empty language.
    pub fn new() -> LanguageBuilder {
        LanguageBuilder::default()
    }

    /// Adds a token class: a kind with a lowest and a highest value.
    pub fn class(self, kind: Kind, values: RangeInclusive<u16>) -> LanguageBuilder {
        self.field(CLASS_TAG, &class_contents(kind, &values))
    }

    /// Adds a token class whose values are the lowest plus multiples of a step.
    ///
    /// ```
    /// use algebra::write::{token, LanguageBuilder};
    /// use algebra::{check_tree, Kind, Language, Tree};
    ///
    /// const RATE: Kind = Kind(3);
    /// let rates = LanguageBuilder::new().class_in_steps(RATE, 100..=200, 5).build()?;
    /// let legal = |rate| check_tree(Language(&rates), RATE, Tree(&token(rate))).is_ok();
    /// assert!(legal(105) && !legal(106));
    /// # Ok::<(), algebra::Refusal>(())
    /// ```
    pub fn class_in_steps(
        self,
        kind: Kind,
        values: RangeInclusive<u16>,
        step: u16,
    ) -> LanguageBuilder {
        let contents = [&class_contents(kind, &values)[..], &step.to_be_bytes()].concat();
        self.field(CLASS_TAG, &contents)
    }

    /// Adds a production: its result kind, its name and the kinds of its arguments.
    pub fn production(self, result: Kind, name: u8, arguments: &[Kind]) -> LanguageBuilder {
        // One more than there may be, so that it is refused.
        let kinds = arguments.iter().take(ARGUMENTS + 1).copied().map(kind_byte);
        let contents: Vec<u8> = [kind_byte(result), name].into_iter().chain(kinds).collect();
        self.field(PRODUCTION_TAG, &contents)
    }

    /// The bytes of the language.
    ///
    /// # Errors
    ///
    /// Refusals: 1 to 4, as for [`check_language`].
    pub fn build(self) -> Result<Vec<u8>, Refusal> {
        check_language(Language(&self.bytes)).map(|()| self.bytes)
    }

    /// Adds a field, which is short.
    fn field(mut self, tag: u8, contents: &[u8]) -> LanguageBuilder {
        self.bytes.extend([tag, 0, contents.len() as u8]);
        self.bytes.extend(contents);
        self
    }
}

/// The byte of a kind. A number that has none is written as one that no kind has, and refused.
fn kind_byte(kind: Kind) -> u8 {
    u8::try_from(kind.0).unwrap_or(u8::MAX)
}

/// The contents of a class with step 1.
fn class_contents(kind: Kind, values: &RangeInclusive<u16>) -> [u8; 5] {
    let ([a, b], [c, d]) = (values.start().to_be_bytes(), values.end().to_be_bytes());
    [kind_byte(kind), a, b, c, d]
}

#[cfg(test)]
mod tests {
    use super::*;

    #[test]
    fn what_is_no_language_is_refused() {
        let built = |builder: LanguageBuilder| builder.build();
        let new = LanguageBuilder::new;
        let (one, two) = (Kind(1), Kind(2));
        assert_eq!(built(new()), Ok(vec![]));
        assert_eq!(built(new().class(one, RangeInclusive::new(2, 1))), Err(Refusal::BrokenField));
        assert_eq!(built(new().class_in_steps(one, 1..=2, 0)), Err(Refusal::BrokenField));
        assert_eq!(built(new().class(two, 1..=2).class(one, 1..=2)), Err(Refusal::OutOfOrder));
        for kind in [32, 255, 256, 257, u32::MAX] {
            let builder = new().production(one, 0, &[Kind(kind)]);
            assert_eq!(built(builder), Err(Refusal::BrokenField), "{kind}");
        }
        for arguments in [9, 255, 256, 70_000] {
            let builder = new().production(one, 0, &vec![two; arguments]);
            assert_eq!(built(builder), Err(Refusal::BrokenField), "{arguments}");
        }
        assert!(built(new().production(one, 0, &[two; 8])).is_ok());
    }
}
