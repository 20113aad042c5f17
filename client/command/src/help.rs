//! The texts of help and usage, from the table of verbs.

use crate::options::{Opt, COMMON};
use crate::table::{Verb, VERBS};

/// No line of help is longer.
pub const WIDTH: usize = 80;

/// What stands above the verbs.
pub const HEADING: &str =
    "algebra: checks, reduces, runs and shows session languages and their translations";

/// What stands below the verbs.
pub const ANSWERS: &str =
    "The first line is 'accepted' with the length of the result (or a score, or two), or 'refused' \
     with a number and a sentence. The status is 0 for accepted, 1 for refused, and 2 if there is \
     no answer: wrong arguments, a file that cannot be read or written.";

/// What is to be known of arguments.
pub const ARGUMENTS: &str =
    "A file is given by its name, or as - for the standard input. Options may stand anywhere, with \
     their values behind them or behind =; -- ends them. Options of every verb:";

/// The options that are no rows, since they ask for no verb.
pub const ASKING: [(&str, &str); 2] =
    [("--help", "tell more about the verb"), ("--version", "tell the version of the command")];

/// Pieces with spaces between them, in lines of at most 80 columns: the first has so many columns taken
/// already, and each further one begins with so many spaces.
fn laid<'a>(pieces: impl IntoIterator<Item = &'a str>, taken: usize, indent: usize) -> String {
    let (mut lines, mut column, mut first) = (String::new(), taken, true);
    for piece in pieces {
        let columns = piece.chars().count();
        if !first && column + 1 + columns > WIDTH {
            lines.push('\n');
            lines.push_str(&" ".repeat(indent));
            column = indent;
        } else if !first {
            lines.push(' ');
            column += 1;
        }
        lines.push_str(piece);
        (column, first) = (column + columns, false);
    }
    lines + "\n"
}

/// A text in lines, as above.
fn filled(text: &str, taken: usize, indent: usize) -> String {
    laid(text.split_whitespace(), taken, indent)
}

/// A paragraph for each line of a text.
fn paragraphs(text: &str) -> String {
    text.lines().map(|line| filled(line, 0, 0)).collect()
}

/// An entry of a list: a name, and behind it a text in lines that begin at one column.
fn entry(name: &str, text: &str, column: usize) -> String {
    let head = format!("  {name}");
    let gap = match head.chars().count() + 2 > column {
        true => format!("\n{}", " ".repeat(column)),
        false => " ".repeat(column - head.chars().count()),
    };
    format!("{head}{gap}{}", filled(text, column, column))
}

/// The entries of options.
fn option_entries(options: &[&Opt]) -> String {
    options.iter().map(|option| entry(&option.shape(), option.help, 17)).collect()
}

/// The lines that say how a verb, or the command, is used.
pub fn usage(verb: Option<&Verb>) -> String {
    let Some(verb) = verb else {
        return "usage: algebra VERB OPERANDS [OPTIONS]; algebra --help tells the verbs"
            .to_string();
    };
    let (head, pieces) = (["usage:", "algebra", verb.name], verb.pieces());
    let lines = laid(head.into_iter().chain(pieces.iter().map(String::as_str)), 0, 7);
    lines.trim_end().to_string()
}

/// The help for a verb.
fn verb_help(verb: &Verb) -> String {
    let details = paragraphs(verb.details);
    let options = option_entries(verb.options);
    let refusals = match verb.refusals {
        "" => String::new(),
        numbers => format!("Refusals: {numbers}.\n"),
    };
    format!("{}\n\n{}.\n{details}{options}{refusals}", usage(Some(verb)), verb.summary)
}

/// The help for a verb, or for the command.
pub fn help(verb: Option<&Verb>) -> String {
    if let Some(verb) = verb {
        return verb_help(verb);
    }
    let verbs: String = VERBS.iter().map(|verb| entry(verb.name, verb.summary, 21)).collect();
    let options = option_entries(COMMON);
    let asking: String = ASKING.iter().map(|(name, text)| entry(name, text, 17)).collect();
    let (arguments, answers) = (filled(ARGUMENTS, 0, 0), filled(ANSWERS, 0, 0));
    format!(
        "{}\nusage: algebra VERB OPERANDS [OPTIONS]\n\n{verbs}\n{arguments}{options}{asking}\n{answers}",
        filled(HEADING, 0, 0)
    )
}

#[cfg(test)]
mod tests {
    use super::*;

    #[test]
    fn no_line_is_longer_than_80_columns() {
        let texts = VERBS.iter().map(|verb| help(Some(verb))).chain([help(None)]);
        for line in texts.collect::<String>().lines() {
            assert!(line.chars().count() <= WIDTH, "{line}");
        }
    }
}
