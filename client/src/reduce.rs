//! Packs reduced to translations.

use crate::output::{accepted_length, in_output};
use crate::{raw, Pack, Refusal, TRANSLATION_BYTES, WORKSPACE_BYTES};

/// Reduces a pack to one translation, which is put at the start of the output; gives its length.
///
/// The output has at least [`TRANSLATION_BYTES`] bytes, else the pack is refused with 9. Behind
/// the result, and after a refusal, it is as it was. The workspace is allocated by the call.
///
/// # Errors
///
/// Refusals: 1 to 13, 26.
///
/// ```
/// use algebra::{reduce, Pack, Refusal, TRANSLATION_BYTES};
///
/// // A club's word "twice", and beside it the words of the strap.
/// let pack = Pack(include_bytes!("../../examples/strap/plan.pack"));
/// let reduced = include_bytes!("../../examples/strap/plan.translation");
///
/// let mut output = [0; TRANSLATION_BYTES];
/// let length = reduce(pack, &mut output)?;
/// assert_eq!(&output[..length], reduced);
/// assert_eq!(reduce(pack, &mut output[..length]), Err(Refusal::BuffersTooShort));
/// # Ok::<(), Refusal>(())
/// ```
pub fn reduce(pack: Pack, output: &mut [u8]) -> Result<usize, Refusal> {
    accepted_length(raw::reduce(pack.0, &mut vec![0; WORKSPACE_BYTES], output))
}

/// Reduces a pack to one translation, with an output that is allocated.
///
/// # Errors
///
/// Refusals: 1 to 8, 10 to 13, 26.
///
/// ```
/// use algebra::{reduce_to_vec, Pack, Refusal};
///
/// let pack = include_bytes!("../../examples/strap/plan.pack");
/// let reduced = include_bytes!("../../examples/strap/plan.translation");
/// assert_eq!(reduce_to_vec(Pack(pack)), Ok(reduced.to_vec()));
/// assert_eq!(reduce_to_vec(Pack(b"")), Err(Refusal::BrokenField));
/// ```
pub fn reduce_to_vec(pack: Pack) -> Result<Vec<u8>, Refusal> {
    in_output(TRANSLATION_BYTES, |output| reduce(pack, output))
}
