//! Fields: one tag byte, two bytes of length, contents.

use crate::outcome::Refusal;

/// The bytes before a field's contents.
pub const HEADER: usize = 3;

/// A whole field.
#[derive(Clone, Copy)]
pub struct Field<'a> {
    pub tag: u8,
    pub contents: &'a [u8],
}

/// The fields of a byte string from first to last.
pub struct Fields<'a> {
    rest: &'a [u8],
}

impl<'a> Fields<'a> {
    /// Starts before the first field.
    pub fn new(bytes: &'a [u8]) -> Fields<'a> {
        Fields { rest: bytes }
    }
}

impl<'a> Iterator for Fields<'a> {
    type Item = Result<Field<'a>, Refusal>;

    /// The next field, `None` at the end, or a refusal where a field is not whole.
    fn next(&mut self) -> Option<Self::Item> {
        if self.rest.is_empty() {
            return None;
        }
        let field = split_field(self.rest);
        self.rest = field.map_or(&[], |(_, rest)| rest);
        Some(field.map(|(field, _)| field).ok_or(Refusal::Broken))
    }
}

/// Splits the first field from the bytes behind it; `None` if it is not whole.
fn split_field(bytes: &[u8]) -> Option<(Field<'_>, &[u8])> {
    let (tag, length) = split_header(bytes)?;
    let behind = &bytes[HEADER..];
    if behind.len() < length {
        return None;
    }
    let (contents, rest) = behind.split_at(length);
    Some((Field { tag, contents }, rest))
}

/// The tag and the stated length at the start of the bytes.
fn split_header(bytes: &[u8]) -> Option<(u8, usize)> {
    match bytes {
        [tag, high, low, ..] => Some((*tag, two_bytes(*high, *low) as usize)),
        _ => None,
    }
}

/// Whether a field with one of the tags, reached over whole fields, states more than `limit`.
pub fn states_over(bytes: &[u8], tags: &[u8], limit: usize) -> bool {
    let mut rest = bytes;
    while let Some((tag, length)) = split_header(rest) {
        if tags.contains(&tag) && length > limit {
            return true;
        }
        match split_field(rest) {
            Some((_, behind)) => rest = behind,
            None => return false,
        }
    }
    false
}

/// A number of two bytes, the high byte first.
pub fn two_bytes(high: u8, low: u8) -> u16 {
    u16::from_be_bytes([high, low])
}

/// Writes a field's tag and length; the length must fit two bytes.
pub fn put_header(output: &mut Vec<u8>, tag: u8, length: usize) {
    let length = u16::try_from(length).expect("a field's length fits two bytes");
    output.push(tag);
    output.extend_from_slice(&length.to_be_bytes());
}
