//! What the listing program prints for a pack.

use crate::body::{CLAUSE_TAG, NUMBERED_CLAUSE_TAG};
use crate::field::{Field, Fields};
use crate::reduce::{reduce, OUTPUT_LEAST, WORKSPACE_LEAST};

/// The first line, and one for each clause of the translation that the pack reduces to.
pub fn listing(pack: &[u8]) -> String {
    let (mut workspace, mut output) = (vec![0; WORKSPACE_LEAST], vec![0; OUTPUT_LEAST]);
    let outcome = reduce(pack, &mut workspace, &mut output);
    let bytes = &output[..outcome.length() as usize];
    match outcome.number() {
        0 => format!("accepted {}\n{}", bytes.len(), clause_lines(bytes)),
        number => format!("refused {number}\n"),
    }
}

/// Result, point, name, a point and the number if it is not 0, a space and the code in capitals, for
/// each clause of a translation.
pub fn clause_lines(translation: &[u8]) -> String {
    let fields = Fields::new(translation).map_while(Result::ok);
    fields.map(clause_line).collect()
}

/// The line of a field that is a clause, and nothing for others.
fn clause_line(field: Field) -> String {
    let (title, code) = match (field.tag, field.contents) {
        (CLAUSE_TAG, [result, name, code @ ..]) => (format!("{result}.{name}"), code),
        (NUMBERED_CLAUSE_TAG, [result, name, number, code @ ..]) => {
            (format!("{result}.{name}.{number}"), code)
        }
        _ => return String::new(),
    };
    let code: String = code.iter().map(|byte| format!("{byte:02X}")).collect();
    format!("{title} {code}\n")
}
