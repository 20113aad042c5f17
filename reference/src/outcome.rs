//! What an operation answers: accepted with a length, or refused with a reason.

/// Why an operation refuses. The value of each reason is its number.
#[derive(Clone, Copy, Debug, PartialEq, Eq)]
#[repr(u32)]
pub enum Refusal {
    /// A file or a language in it is over its limit of bytes.
    TooLong = 1,
    /// A broken field.
    Broken = 2,
    /// Fields out of order, or a key twice.
    Order = 3,
    /// A kind is both a class and a result.
    Clash = 4,
    /// The mapping is not as required.
    Mapping = 5,
    /// Clauses are missing or extra.
    Clauses = 6,
    /// A code is not of its kind, broken or too deep.
    Code = 7,
    /// Not exactly one translation term.
    Term = 8,
    /// Workspace or output is too short to reduce.
    Room = 9,
    /// A variable without a value.
    Unbound = 10,
    /// A value exceeds a limit.
    Limit = 11,
    /// A sum does not fit.
    Sum = 12,
    /// A join does not fit.
    Join = 13,
    /// The root kind is not in the language.
    Root = 14,
    /// Not a legal tree.
    Tree = 15,
    /// A tree of more than 64 levels; a token is none.
    Depth = 16,
    /// The result is longer than the output.
    Output = 17,
    /// A load table is broken or out of order, or its lines are not those of the language.
    Table = 18,
    /// The score of some node is out of range.
    Score = 19,
    /// The text is not the export of a legal tree.
    Text = 20,
    /// A path number is 0, or there is no such argument.
    Path = 21,
    /// The tree is too long for an index, or the index is not the tree's own.
    Index = 22,
    /// No source tree within the limit runs to the target tree.
    NoSource = 23,
    /// A limit of levels outside 1 to 16.
    Limits = 24,
    /// The path has reached a hidden block.
    Hidden = 25,
    /// An operand of a join has a number above 15, or there is a number where only 0 may be.
    Number = 26,
}

/// The answer of an operation.
#[derive(Clone, Copy, Debug, PartialEq, Eq)]
pub enum Outcome {
    /// Accepted, with the length of the result.
    Accepted(u64),
    /// Refused, with the reason.
    Refused(Refusal),
}

impl Outcome {
    /// The number of the answer: 0 for accepted, the reason's number otherwise.
    pub fn number(self) -> u32 {
        match self {
            Outcome::Accepted(_) => 0,
            Outcome::Refused(reason) => reason as u32,
        }
    }

    /// The length of the answer: 0 for a refusal.
    pub fn length(self) -> u64 {
        match self {
            Outcome::Accepted(length) => length,
            Outcome::Refused(_) => 0,
        }
    }
}

impl From<Result<u64, Refusal>> for Outcome {
    fn from(result: Result<u64, Refusal>) -> Outcome {
        match result {
            Ok(length) => Outcome::Accepted(length),
            Err(reason) => Outcome::Refused(reason),
        }
    }
}

impl From<Result<(), Refusal>> for Outcome {
    fn from(result: Result<(), Refusal>) -> Outcome {
        result.map(|()| 0).into()
    }
}

/// Refuses with `reason` unless `holds`.
pub fn require(holds: bool, reason: Refusal) -> Result<(), Refusal> {
    if holds {
        Ok(())
    } else {
        Err(reason)
    }
}
