//! The verb evaluate: the value of each sign of a pack's term, by the library.

use crate::arguments::Call;
use crate::explanation::fault_lines;
use crate::job::operand;
use crate::verbs::printed;
use crate::work::work;
use crate::{Failure, Printed, Streams};
use algebra::{Pack, Refusal, PACK_BYTES, TRANSLATION_BYTES, WORKSPACE_BYTES};
use reference::explain;
use reference::steps::{languages, signs, Valued};

/// Prints each sign of a pack's term with its value.
pub fn evaluate(call: &Call, streams: &mut Streams) -> Result<Printed, Failure> {
    let pack = operand(call, 0, PACK_BYTES, streams)?;
    work(pack.len(), streams, || values(call, &pack))
}

/// What is printed for a pack.
fn values(call: &Call, pack: &[u8]) -> Printed {
    let answer = algebra::reduce_to_vec(Pack(pack)).map(|translation| translation.len());
    let worked_out = answer.is_ok() || answer.is_err_and(is_of_values);
    let signs = signs(pack).filter(|_| worked_out).unwrap_or_default();
    let values: Vec<_> =
        signs.iter().map(|sign| algebra::reduce_to_vec(Pack(&sign.pack))).collect();
    let refused = signs.iter().zip(&values).filter(|(_, value)| value.is_err());
    let first = refused.map(|(sign, _)| sign.turn).min().unwrap_or(usize::MAX);
    let lines = signs.iter().zip(&values).map(|(sign, value)| line(sign, value, first));
    let mut text: String = lines.collect();
    if answer.is_err() {
        let fault = explain::reduce(pack, WORKSPACE_BYTES, TRANSLATION_BYTES);
        text.push_str(&fault.map_or(String::new(), |fault| fault_lines(call, &fault)));
    }
    printed(answer, &text)
}

/// Whether a refusal is given while terms are worked out.
fn is_of_values(refusal: Refusal) -> bool {
    matches!(refusal.number(), 5..=7 | 10..=13 | 26)
}

/// The line of a sign, where the one worked out at a turn is the first that is refused.
fn line(sign: &Valued, value: &Result<Vec<u8>, Refusal>, first: usize) -> String {
    let told = match value {
        _ if sign.turn > first => "not worked out".to_string(),
        Err(refusal) => format!("refused {}: {refusal}", refusal.number()),
        Ok(translation) if sign.language => {
            let language = languages(translation).unwrap_or_default().0;
            format!("language, {}", entries(language, &[(0x11, "class"), (0x12, "production")]))
        }
        Ok(translation) => {
            format!("translation, {}", entries(translation, &[(0x22, "mapping"), (0x23, "clause")]))
        }
    };
    format!("{}{:02X} {}: {told}\n", "  ".repeat(sign.depth), sign.sign, sign.meaning)
}

/// How many bytes a file has, and how many fields of some tags; those of other numbers count with
/// those of number 0.
fn entries(file: &[u8], tags: &[(u8, &str)]) -> String {
    let mut counts = vec![0; tags.len()];
    let mut rest = file;
    while let [tag, high, low, behind @ ..] = rest {
        let tag = match tag {
            0x28 => 0x22,
            0x29 => 0x23,
            tag => *tag,
        };
        if let Some(place) = tags.iter().position(|(known, _)| *known == tag) {
            counts[place] += 1;
        }
        rest = behind.get(usize::from(u16::from_be_bytes([*high, *low]))..).unwrap_or_default();
    }
    let plural = |count: usize, name: &str| match (count, name) {
        (1, name) => format!("1 {name}"),
        (count, "class") => format!("{count} classes"),
        (count, name) => format!("{count} {name}s"),
    };
    let told: Vec<String> =
        counts.iter().zip(tags).map(|(count, (_, name))| plural(*count, name)).collect();
    format!("{}: {}", plural(file.len(), "byte"), told.join(", "))
}
