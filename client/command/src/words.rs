//! The words of names files.

use crate::input::{file_name, read_file};
use crate::options::{Format, Options};
use crate::{Failure, Streams};
use reference::names::Names;
use std::ffi::{OsStr, OsString};

/// The variable that names files of names, with : between them.
const VARIABLE: &str = "ALGEBRA_NAMES";
/// No names file is longer.
const NAMES_BYTES: usize = 1 << 20;

/// The words of the files that the options name, and before them those of the variable.
pub fn load(options: &Options, streams: &mut Streams) -> Result<Names, Failure> {
    let mut names = Names::default();
    let variable = std::env::var_os(VARIABLE).unwrap_or_default();
    let variable: Vec<OsString> = std::env::split_paths(&variable).map(OsString::from).collect();
    for file in variable.iter().chain(&options.names).filter(|file| !file.is_empty()) {
        add(&mut names, file, streams)?;
    }
    Ok(names)
}

/// Adds the words of one file.
fn add(names: &mut Names, file: &OsStr, streams: &mut Streams) -> Result<(), Failure> {
    let bytes = read_file(file, Format::Bytes, NAMES_BYTES, streams)?;
    let shown = file_name(file);
    let text = String::from_utf8(bytes).map_err(|_| Failure::of(&shown, "it is no text"))?;
    names.add(&text).map_err(|broken| Failure::of(&shown, broken))
}
