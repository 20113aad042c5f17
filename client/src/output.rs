//! Answers as results, and outputs that are allocated.

use crate::{raw, Refusal};

/// The first output that is tried for a result of unknown length has at least this many bytes.
const FIRST_OUTPUT: usize = 4096;
/// Each further output is so many times as long.
const OUTPUT_GROWTH: usize = 4;

/// The number of an answer as a result.
pub(crate) fn accepted(number: u32) -> Result<(), Refusal> {
    match number {
        0 => Ok(()),
        number => Err(Refusal::try_from(number).expect("the library gives numbers that it names")),
    }
}

/// The length of an accepted answer; it never exceeds that of an output in memory.
pub(crate) fn accepted_length(answer: raw::Answer) -> Result<usize, Refusal> {
    accepted(answer.number).map(|()| answer.length as usize)
}

/// What a call puts into an output of so many bytes, which is allocated. The call gives the length of
/// its result. Where memory has no room for the output, the answer is 17.
///
/// ```
/// use algebra::write::{production, token};
/// use algebra::{export, in_output, Kind, Language, Refusal, Tree};
///
/// const BLOCK: Kind = Kind(1);
/// const ROW: u8 = 1;
/// let strap = include_bytes!("../../examples/strap/strap.language");
///
/// let row = production(ROW, [token(5)]);
/// let text = |room| in_output(room, |output| export(Language(strap), BLOCK, Tree(&row), output));
/// assert_eq!(text(100), Ok(b"<x1.1><t2>5</t2></x1.1>".to_vec()));
/// assert_eq!(text(10), Err(Refusal::OutputTooShort));
/// ```
pub fn in_output(
    room: usize,
    call: impl FnOnce(&mut [u8]) -> Result<usize, Refusal>,
) -> Result<Vec<u8>, Refusal> {
    let mut output = output_of(room).ok_or(Refusal::OutputTooShort)?;
    let length = call(&mut output)?;
    output.truncate(length);
    output.shrink_to_fit();
    Ok(output)
}

/// What a call puts into an output that is allocated, for a tree of so many bytes, and is made longer
/// up to the limit as long as it is too short; the call gives a length and something besides.
pub(crate) fn in_growing_output<T>(
    tree: usize,
    limit: usize,
    call: impl Fn(&mut [u8]) -> Result<(usize, T), Refusal>,
) -> Result<(Vec<u8>, T), Refusal> {
    let mut room = tree.max(FIRST_OUTPUT).min(limit);
    loop {
        let mut output = output_of(room).ok_or(Refusal::OutputTooShort)?;
        match call(&mut output) {
            Err(Refusal::OutputTooShort) if room < limit => {
                room = room.saturating_mul(OUTPUT_GROWTH).min(limit);
            }
            answer => {
                let (length, besides) = answer?;
                output.truncate(length);
                return Ok((output, besides));
            }
        }
    }
}

/// An output of so many bytes, if memory has room for it. What is tried is given back first, since
/// only a whole allocation comes zeroed without being written to.
pub(crate) fn output_of(bytes: usize) -> Option<Vec<u8>> {
    let mut attempt = Vec::<u8>::new();
    attempt.try_reserve_exact(bytes).ok()?;
    drop(std::hint::black_box(attempt));
    Some(vec![0; bytes])
}
