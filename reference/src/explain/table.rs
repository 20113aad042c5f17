//! Faults of load tables.

use super::{Fault, Piece, Spot};
use crate::language::{Language, Production};
use crate::outcome::Refusal;
use crate::score::{LINE_LENGTH, TABLE_TAG};

/// The table of any language has fewer bytes.
const TABLE_LIMIT: usize = 2048;

/// Looks for a fault of the load table of a language.
pub fn check(language: &Language, table: &[u8]) -> Result<(), Fault> {
    let piece = Piece::whole("table", table);
    let mut spots = table_spots(&piece)?.into_iter();
    for production in &language.productions {
        check_line(&piece, production, spots.next().as_ref(), language)?;
    }
    spots.next().map_or(Ok(()), |spot| Err(line_fault(&piece, &spot, too_many(language, &spot))))
}

/// Looks for a fault of a table without its language: its lines must be whole, and rise.
pub fn check_rising(table: &[u8]) -> Result<(), Fault> {
    let piece = Piece::whole("table", table);
    table_spots(&piece)?;
    piece.check_order().map_err(|fault| Fault { reason: Refusal::Table, ..fault })
}

/// The fields of a table, which must be whole and lines of some production.
pub(crate) fn table_spots<'a>(piece: &Piece<'a>) -> Result<Vec<Spot<'a>>, Fault> {
    if piece.bytes.len() > TABLE_LIMIT {
        let what =
            format!("the table is longer than {TABLE_LIMIT} bytes, as that of no language is");
        return Err(piece.fault(Refusal::Table, TABLE_LIMIT, what));
    }
    piece.walk().map(|spot| whole_line(piece, spot)).collect()
}

/// A field of a table that may be the line of some production.
fn whole_line<'a>(piece: &Piece, spot: Result<Spot<'a>, Fault>) -> Result<Spot<'a>, Fault> {
    let spot = spot.map_err(|fault| Fault { reason: Refusal::Table, ..fault })?;
    let length = spot.contents.len();
    if spot.tag != TABLE_TAG {
        let what = format!("a table has fields {TABLE_TAG:02X}, and this is {:02X}", spot.tag);
        return Err(piece.fault(Refusal::Table, spot.at, what));
    }
    if length < LINE_LENGTH || length % 2 != 0 {
        let what = format!("a line has length {LINE_LENGTH} and 2 for each argument, not {length}");
        return Err(piece.fault(Refusal::Table, spot.at + 1, what));
    }
    Ok(spot)
}

/// Refuses a field that is not the line of a production.
fn check_line(
    piece: &Piece,
    production: &Production,
    spot: Option<&Spot>,
    language: &Language,
) -> Result<(), Fault> {
    let title = production.title();
    let Some(spot) = spot else {
        let what = format!("production {title} has no line");
        return Err(piece.fault(Refusal::Table, piece.end(), what));
    };
    let (count, length) = (production.arguments().len(), spot.contents.len());
    let what = match spot.key().1 {
        key if key == production.key() && length == LINE_LENGTH + 2 * count => return Ok(()),
        key if key == production.key() => {
            let due = LINE_LENGTH + 2 * count;
            format!("production {title} has {count} arguments, and a line of length {due}, not {length}")
        }
        key if knows(language, key) => format!("the line of production {title} is due here"),
        _ => too_many(language, spot),
    };
    Err(line_fault(piece, spot, what))
}

/// Whether a language has the production with a key.
fn knows(language: &Language, key: u16) -> bool {
    language.productions.iter().any(|production| production.key() == key)
}

/// What is wrong with a line for which there is no production, or none that is left.
fn too_many(language: &Language, spot: &Spot) -> String {
    let [result, name] = spot.key().1.to_be_bytes();
    match knows(language, spot.key().1) {
        true => "all productions have their lines already".to_string(),
        false => format!("there is no production {result}.{name}"),
    }
}

/// A fault of a line.
fn line_fault(piece: &Piece, spot: &Spot, what: String) -> Fault {
    piece.named(spot.name()).fault(Refusal::Table, spot.at, what)
}
