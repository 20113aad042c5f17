//! Whether two translations are the same, and where they differ first.

use crate::arguments::Call;
use crate::job::Refused;
use crate::term_job::{reduced_alone, Part};
use crate::verbs::refused;
use crate::work::work;
use crate::{Failure, Printed, Streams, ACCEPTED, REFUSED};
use reference::names::Names;
use reference::show::{difference, Difference};

/// Says whether two packs or translations reduce to the same bytes.
pub fn same(call: &Call, streams: &mut Streams) -> Result<Printed, Failure> {
    let parts = [Part::load(call, 0, streams)?, Part::load(call, 1, streams)?];
    let [one, other] = parts;
    let compared = work(0, streams, || Ok((reduced_alone(one)?, reduced_alone(other)?)))?;
    Ok(match compared {
        Ok((one, other)) => verdict(&one, &other, &call.names),
        Err(found) => refused(&found as &Refused, ""),
    })
}

/// What is said of two translations that have names.
fn verdict(one: &(String, Vec<u8>), other: &(String, Vec<u8>), names: &Names) -> Printed {
    let text =
        |output: String, status| Printed { output: output.into(), status, ..Printed::default() };
    match difference(&one.1, &other.1, names) {
        None => text(format!("same: both reduce to {} bytes\n", one.1.len()), ACCEPTED),
        Some(Difference { name, first, second }) => {
            let has = |entry: Option<String>| entry.unwrap_or("it is not there".to_string());
            let lines = format!("{}: {}\n{}: {}\n", one.0, has(first), other.0, has(second));
            text(format!("different: {name}\n{lines}"), REFUSED)
        }
    }
}
