//! Parts of a file that know where they stand in it.

use super::Fault;
use crate::body::{CLAUSE_TAG, MAPPING_TAG, NUMBERED_CLAUSE_TAG, NUMBERED_MAPPING_TAG};
use crate::field::{two_bytes, HEADER};
use crate::language::{CLASS_TAG, PRODUCTION_TAG};
use crate::outcome::Refusal;
use crate::score::TABLE_TAG;

/// A run of bytes of an input, where it starts, and what it is.
#[derive(Clone)]
pub(crate) struct Piece<'a> {
    input: &'static str,
    within: Vec<String>,
    base: usize,
    pub bytes: &'a [u8],
}

/// A field and where its tag stands in the input.
#[derive(Clone, Copy)]
pub(crate) struct Spot<'a> {
    pub at: usize,
    pub tag: u8,
    pub contents: &'a [u8],
}

/// Where a fault stands in a field, counted from its tag, and what it is.
pub type Local = (usize, String);

impl Spot<'_> {
    /// Where the contents start in the input.
    pub fn inside(&self) -> usize {
        self.at + HEADER
    }

    /// The key by which the fields of a language, a body or a table rise: the tag, then what the field
    /// is for, then its number, which has no part in the tag.
    pub fn key(&self) -> (u8, u16, u8) {
        match (self.tag, self.contents) {
            (NUMBERED_MAPPING_TAG, [kind, number, ..]) => (MAPPING_TAG, u16::from(*kind), *number),
            (NUMBERED_CLAUSE_TAG, [result, name, number, ..]) => {
                (CLAUSE_TAG, two_bytes(*result, *name), *number)
            }
            (PRODUCTION_TAG | CLAUSE_TAG | TABLE_TAG, [result, name, ..]) => {
                (self.tag, two_bytes(*result, *name), 0)
            }
            (tag, [kind, ..]) => (tag, u16::from(*kind), 0),
            (tag, _) => (tag, 0, 0),
        }
    }

    /// What the field of a language, a body or a table is called.
    pub fn name(&self) -> String {
        let (_, key, number) = self.key();
        let [high, low] = key.to_be_bytes();
        match self.tag {
            NUMBERED_MAPPING_TAG => format!("mapping of kind {low} by number {number}"),
            NUMBERED_CLAUSE_TAG => format!("clause {high}.{low}.{number}"),
            CLASS_TAG => format!("class {low}"),
            PRODUCTION_TAG => format!("production {high}.{low}"),
            MAPPING_TAG => format!("mapping of kind {low}"),
            CLAUSE_TAG => format!("clause {high}.{low}"),
            TABLE_TAG => format!("line of {high}.{low}"),
            tag => format!("field {tag:02X}"),
        }
    }
}

impl<'a> Piece<'a> {
    /// A whole input.
    pub fn whole(input: &'static str, bytes: &'a [u8]) -> Piece<'a> {
        Piece { input, within: vec![], base: 0, bytes }
    }

    /// A part of the piece, known by where it starts in the input and by a name.
    pub fn part(&self, base: usize, bytes: &'a [u8], name: String) -> Piece<'a> {
        let within = [&self.within[..], &[name]].concat();
        Piece { input: self.input, within, base, bytes }
    }

    /// The contents of a field of the piece.
    pub fn contents(&self, spot: &Spot<'a>, name: String) -> Piece<'a> {
        self.part(spot.inside(), spot.contents, name)
    }

    /// The same bytes, called by one more name.
    pub fn named(&self, name: String) -> Piece<'a> {
        self.part(self.base, self.bytes, name)
    }

    /// Where the piece starts in the input.
    pub fn start(&self) -> usize {
        self.base
    }

    /// Where the piece ends in the input.
    pub fn end(&self) -> usize {
        self.base + self.bytes.len()
    }

    /// A fault at a byte of the input.
    pub fn fault(&self, reason: Refusal, byte: usize, what: String) -> Fault {
        Fault { byte: Some(byte), ..self.fault_somewhere(reason, what) }
    }

    /// A broken field.
    pub fn fault_in(&self, spot: &Spot, (offset, what): Local) -> Fault {
        let field = self.named(format!("field {:02X} at byte {}", spot.tag, spot.at));
        field.fault(Refusal::Broken, spot.at + offset, what)
    }

    /// A fault of the piece that no byte shows.
    pub fn fault_somewhere(&self, reason: Refusal, what: String) -> Fault {
        Fault {
            reason,
            input: self.input,
            byte: None,
            within: self.within.clone(),
            what,
            hint: None,
        }
    }

    /// Refuses a piece of more than so many bytes.
    pub fn limit(&self, limit: usize) -> Result<(), Fault> {
        if self.bytes.len() <= limit {
            return Ok(());
        }
        let what = format!("the {} is longer than {limit} bytes", self.input);
        Err(self.fault(Refusal::TooLong, self.base + limit, what))
    }

    /// Refuses a field with one of the tags, reached over whole fields, that states over a limit.
    pub fn limit_stated(&self, tags: &[u8], limit: usize) -> Result<(), Fault> {
        let mut at = 0;
        while let Some(&[tag, high, low]) = self.bytes.get(at..at + HEADER) {
            let length = usize::from(two_bytes(high, low));
            if tags.contains(&tag) && length > limit {
                let what = format!("field {tag:02X} states the length {length}, more than {limit}");
                return Err(self.fault(Refusal::TooLong, self.base + at, what));
            }
            at += HEADER + length;
        }
        Ok(())
    }

    /// The fields from first to last; the first that is not whole ends them with a fault.
    pub fn walk(&self) -> impl Iterator<Item = Result<Spot<'a>, Fault>> + '_ {
        let mut at = 0;
        std::iter::from_fn(move || {
            (at < self.bytes.len()).then(|| {
                let spot = self.spot(at);
                at = spot.as_ref().map_or(self.bytes.len(), |spot| {
                    spot.inside() - self.base + spot.contents.len()
                });
                spot
            })
        })
    }

    /// The fields of a piece that are known to be whole.
    pub fn spots(&self) -> Vec<Spot<'a>> {
        self.walk().map_while(Result::ok).collect()
    }

    /// The field at an offset, if it is whole.
    fn spot(&self, offset: usize) -> Result<Spot<'a>, Fault> {
        let (at, rest) = (self.base + offset, &self.bytes[offset..]);
        let &[tag, high, low, ref behind @ ..] = rest else {
            let what = format!("a field starts with {HEADER} bytes, and fewer are left");
            return Err(self.fault(Refusal::Broken, at, what));
        };
        let length = usize::from(two_bytes(high, low));
        match behind.get(..length) {
            Some(contents) => Ok(Spot { at, tag, contents }),
            None => {
                let left = behind.len();
                let what =
                    format!("field {tag:02X} states the length {length}, and {left} is left");
                Err(self.fault(Refusal::Broken, at + 1, what))
            }
        }
    }

    /// Refuses fields that do not rise by their keys.
    pub fn check_order(&self) -> Result<(), Fault> {
        let spots = self.spots();
        let falls = spots.windows(2).find(|pair| pair[0].key() >= pair[1].key());
        falls.map_or(Ok(()), |pair| {
            let (first, second) = (pair[0].name(), pair[1].name());
            let what = match pair[0].key() == pair[1].key() {
                true => format!("{second} stands twice"),
                false => format!("{second} stands behind {first}"),
            };
            Err(self.fault(Refusal::Order, pair[1].at, what))
        })
    }
}
