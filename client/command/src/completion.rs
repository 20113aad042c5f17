//! Completion for shells, from the table of verbs.

use crate::arguments::Call;
use crate::options::{Opt, COMMON, SORTS};
use crate::table::{Verb, VERBS};
use crate::{Failure, Printed, Streams};

/// The scripts, with signs in the places of what the table says.
const BASH: &str = include_str!("completion/bash.template");
const ZSH: &str = include_str!("completion/zsh.template");

/// Prints the completion for a shell.
pub fn completion(call: &Call, _: &mut Streams) -> Result<Printed, Failure> {
    let output = match call.operands[0].to_str() {
        Some("bash") => bash(),
        Some("zsh") => zsh(),
        _ => return Err(call.misuse("there is completion for bash and zsh")),
    };
    Ok(Printed { output: output.into_bytes(), ..Printed::default() })
}

/// A line for each verb, or what else is written for it.
fn for_each_verb(write: impl Fn(&Verb) -> String, between: &str) -> String {
    VERBS.iter().map(write).collect::<Vec<_>>().join(between)
}

/// The options of a verb, with those of every verb.
fn options(verb: &Verb) -> impl Iterator<Item = &'static Opt> {
    verb.options.iter().chain(COMMON).copied()
}

/// The words that follow the option --as.
fn sorts() -> String {
    SORTS.map(|(word, _)| word).join(" ")
}

/// The names of the options that a file follows.
fn before_files(between: &str) -> String {
    let all = VERBS.iter().flat_map(options).filter(|option| option.value == Some("FILE"));
    let mut names: Vec<&str> = all.map(|option| option.name).collect();
    names.sort_unstable();
    names.dedup();
    names.join(between)
}

/// Completion for bash.
fn bash() -> String {
    let case = |verb: &Verb| {
        let names: Vec<&str> = options(verb).map(|option| option.name).collect();
        format!("        {}) options='{}' ;;", verb.name, names.join(" "))
    };
    BASH.replace("@SORTS@", &sorts())
        .replace("@BEFORE-FILES@", &before_files(" | "))
        .replace("@VERBS@", &for_each_verb(|verb| verb.name.to_string(), " "))
        .replace("@CASES@", &for_each_verb(case, "\n"))
}

/// A name and the first part of a text, between quotes of zsh.
fn quoted(name: &str, text: &str) -> String {
    let part = text.split([':', ';', '.']).next().unwrap_or_default();
    format!("'{name}:{}'", part.replace('\'', "'\\''"))
}

/// Completion for zsh.
fn zsh() -> String {
    let case = |verb: &Verb| {
        let options: Vec<String> =
            options(verb).map(|option| quoted(option.name, option.help)).collect();
        format!("        {}) options=({}) ;;", verb.name, options.join(" "))
    };
    let verb = |verb: &Verb| format!("        {}", quoted(verb.name, verb.summary));
    ZSH.replace("@SORTS@", &sorts())
        .replace("@VERBS@", &for_each_verb(verb, "\n"))
        .replace("@CASES@", &for_each_verb(case, "\n"))
}

#[cfg(test)]
mod tests {
    use super::*;

    #[test]
    fn no_sign_is_left() {
        for script in [bash(), zsh()] {
            for sign in ["@SORTS@", "@BEFORE-FILES@", "@VERBS@", "@CASES@"] {
                assert!(!script.contains(sign), "{sign}");
            }
            for verb in VERBS {
                assert!(script.contains(&format!("        {}) options=", verb.name)));
            }
        }
    }
}
