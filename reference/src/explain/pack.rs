//! Faults of packs.

use super::values::check_values;
use super::{body, language, read_term, Fault, Piece, Spot};
use crate::language::LANGUAGE_LIMIT;
use crate::outcome::Refusal;
use crate::pack::{read_pack, BODY_TAG, CONSTANTS, LANGUAGE_TAG, PACK_LIMIT, TERM_TAG};
use crate::reduce::{OUTPUT_LEAST, WORKSPACE_LEAST};

/// The parts of a pack.
pub(crate) struct Parts<'a> {
    pub languages: Vec<Piece<'a>>,
    pub bodies: Vec<Piece<'a>>,
    pub term: Piece<'a>,
}

/// Looks for any fault, with a workspace and an output of so many bytes.
pub fn check(bytes: &[u8], workspace: usize, output: usize) -> Result<(), Fault> {
    let parts = pack_parts(bytes)?;
    let Parts { languages, bodies, term } = &parts;
    languages.iter().chain(bodies).try_for_each(Piece::check_order)?;
    languages.iter().try_for_each(language::check_clash)?;
    let sign = read_term(term, languages.len(), bodies.len())?;
    check_room(workspace, output)?;
    let broken = |reason| term.fault_somewhere(reason, "the pack cannot be read".to_string());
    let pack = read_pack(bytes).map_err(broken)?;
    check_values(&pack, &parts, &sign)
}

/// Refuses a workspace or an output that is too short.
fn check_room(workspace: usize, output: usize) -> Result<(), Fault> {
    let rooms = [("workspace", workspace, WORKSPACE_LEAST), ("output", output, OUTPUT_LEAST)];
    let short = rooms.into_iter().find(|(_, room, least)| room < least);
    short.map_or(Ok(()), |(name, room, least)| {
        let what = format!("its length is {room}, and {least} is needed");
        Err(Piece::whole(name, &[]).fault_somewhere(Refusal::Room, what))
    })
}

/// The parts of a pack that has no fault of length and no broken field.
pub(crate) fn pack_parts(bytes: &[u8]) -> Result<Parts<'_>, Fault> {
    let whole = Piece::whole("pack", bytes);
    whole.limit(PACK_LIMIT)?;
    whole.limit_stated(&[LANGUAGE_TAG], LANGUAGE_LIMIT)?;
    let (mut languages, mut bodies, mut term) = (vec![], vec![], None);
    for spot in whole.walk() {
        let spot = spot?;
        check_group(&whole, &spot, [languages.len(), bodies.len(), usize::from(term.is_some())])?;
        match spot.tag {
            LANGUAGE_TAG => languages.push(language_part(&whole, &spot, languages.len())?),
            BODY_TAG => bodies.push(body_part(&whole, &spot, bodies.len())?),
            _ => term = Some(whole.contents(&spot, "term".to_string())),
        }
    }
    let missing = || whole.fault(Refusal::Broken, bytes.len(), "field 32 is missing".to_string());
    Ok(Parts { languages, bodies, term: term.ok_or_else(missing)? })
}

/// The language in a field 30.
fn language_part<'a>(
    whole: &Piece<'a>,
    spot: &Spot<'a>,
    number: usize,
) -> Result<Piece<'a>, Fault> {
    let piece = whole.contents(spot, format!("language {number}"));
    language::check_fields(&piece)?;
    Ok(piece)
}

/// The body in a field 31.
fn body_part<'a>(whole: &Piece<'a>, spot: &Spot<'a>, number: usize) -> Result<Piece<'a>, Fault> {
    let piece = whole.contents(spot, format!("body {number}"));
    body::check_fields(&piece)?;
    Ok(piece)
}

/// Refuses a field of another tag, in another order, or one too many, behind so many of each.
fn check_group(whole: &Piece, spot: &Spot, before: [usize; 3]) -> Result<(), Fault> {
    let [languages, bodies, terms] = before;
    let tag = spot.tag;
    let fault = |what: String| Err(whole.fault(Refusal::Broken, spot.at, what));
    match tag {
        _ if terms > 0 => fault(format!("field {tag:02X} stands behind field 32")),
        LANGUAGE_TAG if bodies > 0 => fault("field 30 stands behind a field 31".to_string()),
        LANGUAGE_TAG if languages == CONSTANTS => {
            fault(format!("field 30 is one more than {CONSTANTS}"))
        }
        BODY_TAG if bodies == CONSTANTS => fault(format!("field 31 is one more than {CONSTANTS}")),
        LANGUAGE_TAG | BODY_TAG | TERM_TAG => Ok(()),
        _ => fault(format!("a pack has fields 30, 31 and 32, and this is {tag:02X}")),
    }
}
