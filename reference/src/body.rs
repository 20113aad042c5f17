//! Bodies: mappings of kinds and clauses of productions. Those of number 0 are fields 22 and 23,
//! those of other numbers fields 28 and 29.

use crate::field::{put_header, two_bytes, Field, Fields, HEADER};
use crate::language::{bit, check_kind, Draft, Kinds, KINDS};
use crate::outcome::{require, Refusal};

pub const MAPPING_TAG: u8 = 0x22;
pub const CLAUSE_TAG: u8 = 0x23;
pub const NUMBERED_MAPPING_TAG: u8 = 0x28;
pub const NUMBERED_CLAUSE_TAG: u8 = 0x29;
const MAPPING_LENGTH: usize = 2;
const CLAUSE_LENGTH: usize = 2;

/// For each source kind the target kind it is mapped to by number 0, if any.
pub type Mapping = [Option<u8>; KINDS];

/// A mapping of a kind by a number other than 0.
#[derive(Clone, Copy, Debug, PartialEq, Eq)]
pub struct Numbered {
    pub kind: u8,
    pub number: u8,
    pub target: u8,
}

/// A clause: result and name as one number, the number of the mapping, and the bytes of its code.
#[derive(Clone, Copy, Debug, PartialEq, Eq)]
pub struct Clause<'a> {
    pub key: u16,
    pub number: u8,
    pub code: &'a [u8],
}

/// Clauses in order, with their codes in one buffer.
#[derive(Clone, Debug, Default)]
pub struct Clauses {
    spans: Vec<Span>,
    codes: Vec<u8>,
}

/// A clause's key and number, and where its code ends in the buffer; it starts where the one before
/// ends.
#[derive(Clone, Copy, Debug)]
struct Span {
    key: u16,
    number: u8,
    end: u32,
}

/// Mappings and clauses.
#[derive(Clone, Debug, Default)]
pub struct Body {
    /// The mappings of number 0.
    pub mapping: Mapping,
    /// The mappings of other numbers, by rising kind and number.
    pub others: Vec<Numbered>,
    /// The clauses, by rising result, name and number.
    pub clauses: Clauses,
}

impl Numbered {
    /// The place in the order of mappings.
    pub fn key(&self) -> u16 {
        two_bytes(self.kind, self.number)
    }
}

impl<'a> Clause<'a> {
    /// A clause of number 0.
    pub fn plain(key: u16, code: &'a [u8]) -> Clause<'a> {
        Clause { key, number: 0, code }
    }

    /// The place in the order of clauses.
    pub fn place(&self) -> (u16, u8) {
        (self.key, self.number)
    }
}

impl Clauses {
    /// Adds a clause behind the others.
    pub fn push(&mut self, clause: Clause) {
        self.codes.extend_from_slice(clause.code);
        let Clause { key, number, .. } = clause;
        self.spans.push(Span { key, number, end: self.codes.len() as u32 });
    }

    /// The number of clauses.
    pub fn len(&self) -> usize {
        self.spans.len()
    }

    /// The clauses in order.
    pub fn iter(&self) -> impl Iterator<Item = Clause<'_>> {
        let mut start = 0;
        self.spans.iter().map(move |span| {
            let code = &self.codes[start..span.end as usize];
            start = span.end as usize;
            Clause { key: span.key, number: span.number, code }
        })
    }

    /// The bytes of all codes together.
    pub fn code_bytes(&self) -> usize {
        self.codes.len()
    }
}

impl<'a> FromIterator<Clause<'a>> for Clauses {
    fn from_iter<I: IntoIterator<Item = Clause<'a>>>(list: I) -> Clauses {
        let mut clauses = Clauses::default();
        list.into_iter().for_each(|clause| clauses.push(clause));
        clauses
    }
}

/// Where a field stands among the fields of a body: mappings first, then clauses, each by its key and
/// then its number.
type Position = (bool, u16, u8);

impl Body {
    /// Decodes all fields; refuses a broken one and a mapping behind a clause.
    pub fn decode(fields: Fields) -> Result<Draft<Body>, Refusal> {
        let mut draft = Draft { value: Body::default(), rising: true };
        let mut last: Option<Position> = None;
        for field in fields {
            let position = draft.value.decode_field(field?)?;
            let group = last.is_some_and(|(clause, ..)| clause);
            require(group <= position.0, Refusal::Broken)?;
            draft.rising &= last < Some(position);
            last = Some(position);
        }
        Ok(draft)
    }

    /// Adds the mapping or clause of one field and gives its position.
    fn decode_field(&mut self, field: Field) -> Result<Position, Refusal> {
        match (field.tag, field.contents) {
            (MAPPING_TAG, &[source, target]) => {
                check_kind(source)?;
                self.mapping[source as usize] = Some(check_kind(target)?);
                Ok((false, u16::from(source), 0))
            }
            (NUMBERED_MAPPING_TAG, &[kind, number @ 1..=255, target]) => {
                let (kind, target) = (check_kind(kind)?, check_kind(target)?);
                self.others.push(Numbered { kind, number, target });
                Ok((false, u16::from(kind), number))
            }
            (CLAUSE_TAG, &[result, name, ref code @ ..]) => {
                self.add_clause([result, name], 0, code)
            }
            (NUMBERED_CLAUSE_TAG, &[result, name, number @ 1..=255, ref code @ ..]) => {
                self.add_clause([result, name], number, code)
            }
            _ => Err(Refusal::Broken),
        }
    }

    /// Adds a clause for a result and a name, and gives its position.
    fn add_clause(
        &mut self,
        [result, name]: [u8; 2],
        number: u8,
        code: &[u8],
    ) -> Result<Position, Refusal> {
        let key = two_bytes(check_kind(result)?, name);
        self.clauses.push(Clause { key, number, code });
        Ok((true, key, number))
    }

    /// The mappings of a kind by other numbers than 0.
    #[inline]
    pub fn others_of(&self, kind: u8) -> &[Numbered] {
        let start = self.others.partition_point(|other| other.kind < kind);
        let rest = &self.others[start..];
        &rest[..rest.partition_point(|other| other.kind == kind)]
    }

    /// The numbers of a kind, 0 first, each with the kind it is mapped to.
    pub fn numbers(&self, kind: u8) -> impl Iterator<Item = (u8, u8)> + '_ {
        let first = self.mapping[kind as usize].map(|target| (0, target));
        first.into_iter().chain(self.others_of(kind).iter().map(|of| (of.number, of.target)))
    }

    /// The place of a number among those of a mapped kind.
    #[inline]
    pub fn rank(&self, kind: u8, number: u8) -> Option<usize> {
        if number == 0 {
            return Some(0);
        }
        let place =
            self.others_of(kind).binary_search_by_key(&number, |other| other.number).ok()?;
        Some(place + 1)
    }

    /// The kind that a kind is mapped to by a number.
    pub fn mapped(&self, kind: u8, number: u8) -> Option<u8> {
        match self.rank(kind, number)? {
            0 => self.mapping[kind as usize],
            rank => Some(self.others_of(kind)[rank - 1].target),
        }
    }

    /// Whether there is no number but 0 in the mappings.
    pub fn is_plain(&self) -> bool {
        self.others.is_empty()
    }

    /// The kinds that are mapped by number 0.
    pub fn mapped_kinds(&self) -> Kinds {
        let mapped = (0..KINDS as u8).filter(|&kind| self.mapping[kind as usize].is_some());
        mapped.fold(0, |kinds, kind| kinds | bit(kind))
    }

    /// The number of bytes that `encode` writes.
    pub fn encoded_length(&self) -> usize {
        self.mapped_kinds().count_ones() as usize * (HEADER + MAPPING_LENGTH)
            + self.others.len() * (HEADER + MAPPING_LENGTH + 1)
            + self.clauses.len() * (HEADER + CLAUSE_LENGTH)
            + self.clauses.iter().filter(|clause| clause.number != 0).count()
            + self.clauses.code_bytes()
    }

    /// Appends the fields of the body.
    pub fn encode(&self, output: &mut Vec<u8>) {
        (0..KINDS as u8).for_each(|kind| self.encode_mappings(kind, output));
        for clause in self.clauses.iter() {
            let (tag, number) = match &clause.number {
                0 => (CLAUSE_TAG, &[][..]),
                number => (NUMBERED_CLAUSE_TAG, std::slice::from_ref(number)),
            };
            put_header(output, tag, CLAUSE_LENGTH + number.len() + clause.code.len());
            output.extend_from_slice(&clause.key.to_be_bytes());
            output.extend_from_slice(number);
            output.extend_from_slice(clause.code);
        }
    }

    /// Appends the mappings of a kind.
    fn encode_mappings(&self, kind: u8, output: &mut Vec<u8>) {
        if let Some(target) = self.mapping[kind as usize] {
            put_header(output, MAPPING_TAG, MAPPING_LENGTH);
            output.extend_from_slice(&[kind, target]);
        }
        for other in self.others_of(kind) {
            put_header(output, NUMBERED_MAPPING_TAG, MAPPING_LENGTH + 1);
            output.extend_from_slice(&[kind, other.number, other.target]);
        }
    }
}
