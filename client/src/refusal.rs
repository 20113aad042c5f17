//! Why an operation refuses.

use std::error::Error;
use std::fmt;

/// Defines the refusals with their numbers and sentences.
macro_rules! refusals {
    ($($number:literal $name:ident $sentence:literal)*) => {
        /// Why an operation refuses. Later versions add reasons.
        ///
        /// ```
        /// use algebra::Refusal;
        ///
        /// let refusal = Refusal::try_from(14).unwrap();
        /// assert_eq!(refusal, Refusal::UnknownRoot);
        /// assert_eq!(refusal.number(), 14);
        /// assert_eq!(refusal.to_string(), "the root kind is not in the language");
        /// assert!(Refusal::try_from(0).is_err());
        /// ```
        #[derive(Clone, Copy, Debug, PartialEq, Eq, PartialOrd, Ord, Hash)]
        #[repr(u32)]
        #[non_exhaustive]
        pub enum Refusal {
            $(
                #[doc = concat!(stringify!($number), ": ", $sentence, ".")]
                $name = $number,
            )*
        }

        impl Refusal {
            /// Every reason, by rising number.
            pub const ALL: &'static [Refusal] = &[$(Refusal::$name),*];

            /// The sentence that says what is wrong.
            pub const fn sentence(self) -> &'static str {
                match self {
                    $(Refusal::$name => $sentence,)*
                }
            }
        }
    };
}

refusals! {
    1 TooLong "a file, or a language inside it, is longer than its limit"
    2 BrokenField "a field is broken: its tag, its length, a number in it, or the end of the input"
    3 OutOfOrder "fields are out of order, or a key occurs twice"
    4 ClassIsResult "a kind is both a token class and the result of a production"
    5 WrongMapping "the mapping is not as required"
    6 WrongClauses "a clause is missing, or has no production in the source"
    7 IllegalCode "a code is broken, not of its kind, or over 16 levels"
    8 IllegalTerm "field 32 is not exactly one translation term"
    9 BuffersTooShort "the workspace or the output is too short to reduce"
    10 UnboundVariable "a variable has no value"
    11 ValueTooLarge "the value of a sign exceeds a limit of bytes or levels"
    12 SumUnfit "the operands of a sum do not fit together"
    13 JoinUnfit "the target of a join's second operand does not lie within the source of its first"
    14 UnknownRoot "the root kind is not in the language"
    15 IllegalTree "the tree is not legal"
    16 TooDeep "the tree has more than 64 levels"
    17 OutputTooShort "the result is longer than the output"
    18 BrokenTable "the load table is broken, out of order, lacks a production or has one too many"
    19 ScoreOutOfRange "a node's score lies outside -1,000,000,000 to 1,000,000,000"
    20 NotAnExport "the text is not an export of a legal tree"
    21 NoBlock "a path number is 0, or there is no such argument"
    22 NotIndexed "the tree is over 65,535 bytes, or the index is not its own"
    23 NoSource "no source tree within the limit gives this tree"
    24 LimitOutOfRange "the limit of levels is not 1 to 16"
    25 Hidden "the path has reached a hidden block"
    26 NumberUnfit "a mapping number is above 15 in a join, or not 0 where only 0 is taken"
}

impl Refusal {
    /// The number of the reason, as the C interface gives it.
    pub const fn number(self) -> u32 {
        self as u32
    }
}

impl fmt::Display for Refusal {
    /// Writes the sentence.
    fn fmt(&self, formatter: &mut fmt::Formatter) -> fmt::Result {
        formatter.pad(self.sentence())
    }
}

impl Error for Refusal {}

impl From<Refusal> for u32 {
    fn from(refusal: Refusal) -> u32 {
        refusal.number()
    }
}

/// A number that no refusal has; 0, which stands for accepted, is one.
#[derive(Clone, Copy, Debug, PartialEq, Eq)]
pub struct UnknownNumber(pub u32);

impl fmt::Display for UnknownNumber {
    fn fmt(&self, formatter: &mut fmt::Formatter) -> fmt::Result {
        write!(formatter, "{} is not the number of a refusal", self.0)
    }
}

impl Error for UnknownNumber {}

impl TryFrom<u32> for Refusal {
    type Error = UnknownNumber;

    fn try_from(number: u32) -> Result<Refusal, UnknownNumber> {
        let mut all = Refusal::ALL.iter().copied();
        all.find(|refusal| refusal.number() == number).ok_or(UnknownNumber(number))
    }
}

#[cfg(test)]
mod tests {
    use super::*;

    #[test]
    fn numbers_rise_from_1() {
        assert_eq!(Refusal::ALL[0].number(), 1);
        assert!(Refusal::ALL.windows(2).all(|pair| pair[0].number() < pair[1].number()));
    }

    #[test]
    fn every_number_gives_its_refusal_back() {
        for &refusal in Refusal::ALL {
            assert_eq!(Refusal::try_from(u32::from(refusal)), Ok(refusal));
        }
        let last = Refusal::ALL.last().map_or(0, |refusal| refusal.number());
        for number in [0, last + 1, u32::MAX] {
            assert_eq!(Refusal::try_from(number), Err(UnknownNumber(number)));
        }
    }

    #[test]
    fn sentences_differ_and_are_what_is_displayed() {
        for (place, refusal) in Refusal::ALL.iter().enumerate() {
            assert_eq!(refusal.to_string(), refusal.sentence());
            let others = &Refusal::ALL[place + 1..];
            assert!(others.iter().all(|other| other.sentence() != refusal.sentence()));
        }
    }
}
