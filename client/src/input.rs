//! What is handed to an operation: bytes with what they are taken for, and numbers with what they
//! count, so that no two can change places.

use std::fmt;

/// Defines types for bytes that are taken for something.
macro_rules! bytes {
    ($($(#[$comment:meta])* $name:ident)*) => {$(
        $(#[$comment])*
        #[derive(Clone, Copy, Default, PartialEq, Eq, PartialOrd, Ord, Hash)]
        pub struct $name<'a>(pub &'a [u8]);

        impl AsRef<[u8]> for $name<'_> {
            fn as_ref(&self) -> &[u8] {
                self.0
            }
        }

        impl<'a> From<&'a [u8]> for $name<'a> {
            fn from(bytes: &'a [u8]) -> $name<'a> {
                $name(bytes)
            }
        }

        impl fmt::Debug for $name<'_> {
            /// Writes the bytes in hexadecimal digits.
            fn fmt(&self, formatter: &mut fmt::Formatter) -> fmt::Result {
                write!(formatter, concat!(stringify!($name), "({:02X?})"), self.0)
            }
        }
    )*};
}

bytes! {
    /// Bytes that are taken for a language: token classes, then productions.
    ///
    /// As with all of these types, the bytes may be anything: whether they are a language, the
    /// operations tell.
    ///
    /// ```
    /// use algebra::{check_language, Language, Refusal};
    ///
    /// // The classes and productions of the strap.
    /// let strap = include_bytes!("../../examples/strap/strap.language");
    /// assert_eq!(check_language(Language(strap)), Ok(()));
    /// assert_eq!(check_language(Language(b"row")), Err(Refusal::BrokenField));
    /// ```
    Language
    /// Bytes that are taken for a translation: source, target, mappings and clauses.
    Translation
    /// Bytes that are taken for a pack: languages, bodies of translations, and a term.
    Pack
    /// Bytes that are taken for a tree: a plan, a session, or a part of one.
    ///
    /// [`write`](crate::write) puts one together.
    Tree
    /// Bytes that are taken for a loose plan: a tree whose tokens are each a least and a greatest
    /// value.
    LoosePlan
    /// Bytes that are taken for a load table: a constant and factors for each production.
    LoadTable
    /// Bytes that are taken for the export of a tree.
    Xml
    /// Bytes that are taken for the index of a tree: start and length of each node.
    Index
    /// A path from the root of a tree to a block: argument numbers, which count from 1. The empty
    /// one leads to the whole tree.
    BlockPath
    /// Bytes that are taken for a viewer's card: the kinds that are seen. [`card`](crate::card)
    /// makes one.
    Card
    /// Bytes that are taken for the tree which an edit puts in the place of a block.
    NewBlock
}

/// The bytes of a card that shows every kind.
const ALL_KINDS: &[u8] = &[
    0x27, 0, 32, 0, 1, 2, 3, 4, 5, 6, 7, 8, 9, 10, 11, 12, 13, 14, 15, 16, 17, 18, 19, 20, 21, 22,
    23, 24, 25, 26, 27, 28, 29, 30, 31,
];

impl Card<'static> {
    /// The card that shows every kind.
    ///
    /// ```
    /// use algebra::{card, Card, Kind};
    ///
    /// assert_eq!(card((0..32).map(Kind))?, Card::ALL.0);
    /// # Ok::<(), algebra::Refusal>(())
    /// ```
    pub const ALL: Card<'static> = Card(ALL_KINDS);
}

/// Defines types for numbers that count something.
macro_rules! numbers {
    ($($(#[$comment:meta])* $name:ident)*) => {$(
        $(#[$comment])*
        #[derive(Clone, Copy, Debug, Default, PartialEq, Eq, PartialOrd, Ord, Hash)]
        pub struct $name(pub u32);

        impl From<u32> for $name {
            fn from(number: u32) -> $name {
                $name(number)
            }
        }

        impl From<$name> for u32 {
            fn from(number: $name) -> u32 {
                number.0
            }
        }

        impl fmt::Display for $name {
            /// Writes the number.
            fn fmt(&self, formatter: &mut fmt::Formatter) -> fmt::Result {
                fmt::Display::fmt(&self.0, formatter)
            }
        }
    )*};
}

numbers! {
    /// A kind: what a tree, a block or a token is.
    ///
    /// The kinds of a language are 0 to 31. Another number is in no language, and is refused as one
    /// that the language lacks.
    ///
    /// ```
    /// use algebra::Kind;
    ///
    /// const BLOCK: Kind = Kind(1);
    /// assert_eq!(format!("kind {BLOCK}"), "kind 1");
    /// assert_eq!(u32::from(BLOCK), 1);
    /// ```
    Kind
    /// The number of a mapping. A kind may have several, 0 to 255, and always has number 0, which is
    /// the default.
    ///
    /// A root and a number cannot change places:
    ///
    /// ```compile_fail,E0308
    /// use algebra::{run_to_vec, Kind, MappingNumber, Translation, Tree};
    ///
    /// run_to_vec(Translation(&[]), MappingNumber(0), Kind(1), Tree(&[]), 1000);
    /// ```
    MappingNumber
    /// A limit of levels for a search, 1 to 16.
    Levels
}

#[cfg(test)]
mod tests {
    use super::*;

    #[test]
    fn bytes_are_shown_in_hexadecimal_digits() {
        assert_eq!(format!("{:?}", Tree(&[1, 0, 240])), "Tree([01, 00, F0])");
        assert_eq!(format!("{:?}", Card::default()), "Card([])");
    }

    #[test]
    fn bytes_and_numbers_come_back() {
        assert_eq!(Language::from(&[1, 2][..]).as_ref(), [1, 2]);
        assert_eq!(u32::from(MappingNumber::from(7)), 7);
        assert_eq!(
            (MappingNumber::default(), Levels(3).to_string()),
            (MappingNumber(0), "3".into())
        );
    }
}
