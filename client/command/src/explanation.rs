//! What is said below a refusal: the fault that is found by a second reading of the inputs.

use crate::arguments::Call;
use crate::input::place_of;
use crate::table::Verb;
use algebra::Refusal;
use reference::explain::Fault;
use std::ffi::OsString;

/// The lines that tell where a fault is and what it is: with words where there are names, and by line
/// and column where the file is text.
pub fn fault_lines(call: &Call, fault: &Fault) -> String {
    let place = fault
        .byte
        .and_then(|byte| place_of(file_of(call, fault.input)?, call.options.format(), byte));
    call.names.speak(&format!("{}\n", fault.lines(place)))
}

/// The file of a call that an input is read from.
fn file_of<'a>(call: &'a Call, input: &str) -> Option<&'a OsString> {
    match input {
        "index" => return call.options.index.as_ref(),
        "card" if call.options.card.is_some() => return call.options.card.as_ref(),
        _ => (),
    }
    let count = call.operands.len();
    let form = call.verb.forms.iter().find(|form| form.len() >= count)?;
    let named = input.to_uppercase();
    let place = form.iter().position(|operand| operand.name.contains(&named));
    let first = matches!(input, "language" | "translation" | "pack" | "table").then_some(0);
    call.operands.get(place.or(first)?)
}

/// The lines of an explanation, with a note if both implementations do not answer alike.
pub fn explanation(call: &Call, answer: Result<(), Refusal>, fault: Option<&Fault>) -> String {
    let number = answer.err().map_or(0, Refusal::number);
    let found = fault.map_or(0, |fault| fault.reason as u32);
    let lines = fault.map_or(String::new(), |fault| fault_lines(call, fault));
    if number == found {
        return lines;
    }
    format!("note: the second implementation answers {found}, not {number}\n{lines}")
}

/// The sentence of a refusal, where an operation gives it for a reason of its own.
pub fn sentence(verb: &Verb, refusal: Refusal, fault: Option<&Fault>) -> String {
    let of_number = fault.is_some_and(|fault| fault.input == "number");
    match (verb.name, refusal) {
        (_, Refusal::UnknownRoot) if of_number => "the root kind has no mapping of this number",
        ("run" | "search" | "steps", Refusal::UnknownRoot) => "the root kind is not in the source",
        ("join-table", Refusal::ValueTooLarge) => {
            "a constant or a factor of the joined table does not fit two bytes"
        }
        ("score-loose", Refusal::IllegalTree) => "the loose plan is not legal",
        _ => return refusal.to_string(),
    }
    .to_string()
}

/// The refusal of a fault, by its number.
pub fn refusal(fault: &Fault) -> Refusal {
    Refusal::try_from(fault.reason as u32).expect("both implementations have the same numbers")
}

#[cfg(test)]
mod tests {
    use super::*;
    use crate::arguments::{parse, Request};

    /// A call whose file is not there.
    fn call() -> Call {
        match parse(&["check-language".into(), "none".into()]) {
            Ok(Request::Call(call)) => *call,
            other => panic!("{other:?}"),
        }
    }

    #[test]
    fn a_different_number_is_told() {
        let fault = reference::explain::language(&[1]);
        let fault = fault.as_ref();
        let lines = explanation(&call(), Err(Refusal::BrokenField), fault);
        assert!(lines.starts_with("where: byte 0 of the language\nfault: "), "{lines}");
        let note = "note: the second implementation answers 2, not 0\nwhere: ";
        assert!(explanation(&call(), Ok(()), fault).starts_with(note));
        let note = "note: the second implementation answers 2, not 3\nwhere: ";
        assert!(explanation(&call(), Err(Refusal::OutOfOrder), fault).starts_with(note));
        let note = "note: the second implementation answers 0, not 3\n";
        assert_eq!(explanation(&call(), Err(Refusal::OutOfOrder), None), note);
        assert_eq!(explanation(&call(), Ok(()), None), "");
    }
}
