//! The parts of a text in the notation, each with its line and column.

use std::fmt;

/// What a part is.
#[derive(Clone, Debug, PartialEq, Eq)]
pub enum Token {
    /// A word or a number.
    Atom(String),
    /// One of the marks ( ) , : =
    Mark(char),
    /// The end of a line outside of brackets.
    Line,
    End,
}

/// A part and where it starts, both counted from 1.
#[derive(Clone, Debug, PartialEq, Eq)]
pub struct Placed {
    pub token: Token,
    pub line: usize,
    pub column: usize,
}

/// What is wrong with a text, and where.
#[derive(Clone, Debug, PartialEq, Eq)]
pub struct Misread {
    pub line: usize,
    pub column: usize,
    pub what: String,
}

impl fmt::Display for Misread {
    fn fmt(&self, formatter: &mut fmt::Formatter) -> fmt::Result {
        write!(formatter, "line {}, column {}: {}", self.line, self.column, self.what)
    }
}

impl fmt::Display for Token {
    fn fmt(&self, formatter: &mut fmt::Formatter) -> fmt::Result {
        match self {
            Token::Atom(text) => write!(formatter, "{text}"),
            Token::Mark(mark) => write!(formatter, "{mark}"),
            Token::Line => write!(formatter, "the end of the line"),
            Token::End => write!(formatter, "the end of the text"),
        }
    }
}

/// Splits a text into its parts. A # with a digit behind it is an argument; any other begins a
/// comment that ends with its line.
pub fn tokens(text: &str) -> Result<Vec<Placed>, Misread> {
    let (mut list, mut depth) = (Vec::new(), 0usize);
    let mut last = (1, 1);
    for (number, line) in text.lines().enumerate() {
        let characters: Vec<char> = line.chars().collect();
        split_line(&characters, number + 1, &mut depth, &mut list)?;
        last = (number + 1, characters.len() + 1);
        let ended = matches!(list.last(), None | Some(Placed { token: Token::Line, .. }));
        if depth == 0 && !ended {
            list.push(Placed { token: Token::Line, line: last.0, column: last.1 });
        }
    }
    list.push(Placed { token: Token::End, line: last.0, column: last.1 });
    Ok(list)
}

/// Splits one line, inside of so many brackets.
fn split_line(
    line: &[char],
    number: usize,
    depth: &mut usize,
    list: &mut Vec<Placed>,
) -> Result<(), Misread> {
    let mut at = 0;
    while at < line.len() {
        let (start, first) = (at, line[at]);
        at += 1;
        let token = match first {
            _ if first.is_whitespace() => continue,
            '#' if !line.get(at).is_some_and(char::is_ascii_digit) => break,
            '(' | ')' | ',' | ':' | '=' => {
                *depth = match first {
                    '(' => *depth + 1,
                    ')' => depth.saturating_sub(1),
                    _ => *depth,
                };
                Token::Mark(first)
            }
            _ if first == '#' || is_of_atom(first) => {
                at += line[at..].iter().take_while(|&&next| is_of_atom(next)).count();
                Token::Atom(line[start..at].iter().collect())
            }
            _ => {
                let what = format!("'{}' is no part of the notation", first.escape_default());
                return Err(Misread { line: number, column: start + 1, what });
            }
        };
        list.push(Placed { token, line: number, column: start + 1 });
    }
    Ok(())
}

/// Whether a character may stand in a word or a number.
fn is_of_atom(character: char) -> bool {
    character.is_alphanumeric() || matches!(character, '_' | '-' | '.' | '?')
}

#[cfg(test)]
mod tests {
    use super::*;

    #[test]
    fn parts_have_their_places() {
        let list = tokens("card # seen\n\n kind 1(\n#2)\n").expect("a text");
        let shown: Vec<String> = list.iter().map(|placed| placed.token.to_string()).collect();
        let line = "the end of the line";
        let expected = ["card", line, "kind", "1", "(", "#2", ")", line, "the end of the text"];
        assert_eq!(shown, expected);
        let places: Vec<_> = list.iter().map(|placed| (placed.line, placed.column)).collect();
        assert_eq!(places[..6], [(1, 1), (1, 12), (3, 2), (3, 7), (3, 8), (4, 1)]);
        let misread = tokens("card\n  kind 1 ;").expect_err("no part").to_string();
        assert_eq!(misread, "line 2, column 10: ';' is no part of the notation");
    }
}
