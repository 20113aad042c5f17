//! The command `algebra`.

#![forbid(unsafe_code)]

use algebra_command::{command, Streams};
use std::ffi::OsString;
use std::io::{stderr, stdin, stdout, IsTerminal};
use std::process::ExitCode;

fn main() -> ExitCode {
    let arguments: Vec<OsString> = std::env::args_os().skip(1).collect();
    let terminal = stderr().is_terminal();
    let plain = std::env::var_os("NO_COLOR").is_some_and(|value| !value.is_empty());
    let colour = stdout().is_terminal() && !plain;
    let (mut input, mut output, mut messages) = (stdin().lock(), stdout().lock(), stderr().lock());
    let mut streams = Streams {
        input: &mut input,
        output: &mut output,
        messages: &mut messages,
        terminal,
        colour,
    };
    ExitCode::from(command(&arguments, &mut streams))
}
