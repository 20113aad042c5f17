//! Hexadecimal text: two digits a byte, `00 x64` for 64 of them, # before a comment.

/// A byte is not repeated more often.
const MOST: usize = 100_000_000;
/// A text that is shorter must be right to be taken for one.
const SHORT: usize = 16;

/// Where the reading of hexadecimal text stands.
pub struct Text {
    /// The first digit of a byte whose second is awaited.
    half: Option<u8>,
    /// How often the byte before is to stand, while the digits of that are read.
    count: Option<usize>,
    comment: bool,
    line: usize,
}

impl Default for Text {
    fn default() -> Text {
        Text { half: None, count: None, comment: false, line: 1 }
    }
}

impl Text {
    /// Takes in one character and appends the bytes that are whole with it.
    pub fn take(&mut self, character: u8, bytes: &mut Vec<u8>) -> Result<(), String> {
        if let Some(count) = self.count {
            return self.take_count(character, count, bytes);
        }
        match (character, self.half) {
            (b'\n', None) => {
                self.line += 1;
                self.comment = false;
            }
            _ if self.comment => (),
            (b'#', None) => self.comment = true,
            (b' ' | b'\t' | b'\r', None) => (),
            (b'x', None) if !bytes.is_empty() => self.count = Some(0),
            (_, half) => return self.take_digit(character, half, bytes),
        }
        Ok(())
    }

    /// Takes in a character behind x: one more digit, or the end of the count.
    fn take_count(
        &mut self,
        character: u8,
        count: usize,
        bytes: &mut Vec<u8>,
    ) -> Result<(), String> {
        if character.is_ascii_digit() {
            let count = 10 * count + usize::from(character - b'0');
            self.count = Some(count);
            return match count > MOST {
                true => Err(format!("line {}: a count is over {MOST}", self.line)),
                false => Ok(()),
            };
        }
        self.repeat(bytes)?;
        self.take(character, bytes)
    }

    /// Repeats the last byte as often as the count says.
    fn repeat(&mut self, bytes: &mut Vec<u8>) -> Result<(), String> {
        let (Some(count), Some(&last)) = (self.count.take(), bytes.last()) else { return Ok(()) };
        if count == 0 {
            return Err(format!("line {}: a number from 1 must follow x", self.line));
        }
        bytes.extend(std::iter::repeat_n(last, count - 1));
        Ok(())
    }

    /// Takes in a character that must be a digit.
    fn take_digit(
        &mut self,
        character: u8,
        half: Option<u8>,
        bytes: &mut Vec<u8>,
    ) -> Result<(), String> {
        let (line, digit) = (self.line, char::from(character).to_digit(16));
        match (digit.map(|digit| digit as u8), half) {
            (Some(digit), None) => self.half = Some(digit),
            (Some(digit), Some(half)) => {
                self.half = None;
                bytes.push(16 * half + digit);
            }
            (None, Some(_)) if b" \t\r\n#".contains(&character) => {
                return Err(format!("line {line}: a digit stands alone"));
            }
            (None, _) => {
                let character = character.escape_ascii();
                return Err(format!("line {line}: '{character}' is no hexadecimal digit"));
            }
        }
        Ok(())
    }

    /// Refuses an end between the digits of a byte.
    pub fn end(&mut self, bytes: &mut Vec<u8>) -> Result<(), String> {
        match self.half {
            Some(_) => Err(format!("line {}: a digit stands alone", self.line)),
            None => self.repeat(bytes),
        }
    }
}

/// Whether the start of a file looks like hexadecimal text.
pub fn is_text(start: &[u8]) -> bool {
    let (mut comment, mut digits) = (false, 0);
    for &byte in start {
        match byte {
            b'\n' => comment = false,
            b'\t' | b'\r' => (),
            0..=31 => return false,
            _ if comment => (),
            b'#' => comment = true,
            b' ' | b'x' => (),
            _ if byte.is_ascii_hexdigit() => digits += 1,
            _ => return false,
        }
    }
    digits > 1 && (start.len() >= SHORT || decoded(start).is_ok())
}

/// The bytes of a whole text.
fn decoded(text: &[u8]) -> Result<Vec<u8>, String> {
    let (mut state, mut bytes) = (Text::default(), vec![]);
    text.iter().try_for_each(|&character| state.take(character, &mut bytes))?;
    state.end(&mut bytes)?;
    Ok(bytes)
}

/// The line and column of a text at which a byte is written, both counted from 1.
pub fn place_in(text: &[u8], byte: usize) -> Option<(usize, usize)> {
    let (mut state, mut bytes) = (Text::default(), vec![]);
    let (mut line, mut column, mut place) = (1, 0, None);
    for &character in text {
        column += 1;
        if state.half.is_none() {
            place = Some((line, column));
        }
        if state.take(character, &mut bytes).is_err() || bytes.len() > byte {
            break;
        }
        if character == b'\n' {
            (line, column) = (line + 1, 0);
        }
    }
    match bytes.len() > byte {
        true => place,
        false => Some((line, column + 1)),
    }
}

#[cfg(test)]
mod tests {
    use super::*;

    #[test]
    fn text_may_have_spaces_lines_comments_and_counts() {
        let text = b"0a 0B\t0c\r\n# 0d, not read\n0E0f # the end";
        assert_eq!(decoded(text), Ok(vec![10, 11, 12, 14, 15]));
        assert_eq!(decoded(b""), Ok(vec![]));
        assert_eq!(decoded(b"01 02 x3 04x2#"), Ok(vec![1, 2, 2, 2, 4, 4]));
        assert_eq!(decoded(b"00 x64").map(|bytes| bytes.len()), Ok(64));
    }

    #[test]
    fn wrong_text_is_told_with_its_line() {
        for (text, message) in [
            (&b"00\n0 0"[..], "line 2: a digit stands alone"),
            (b"00\n0", "line 2: a digit stands alone"),
            (b"0#", "line 1: a digit stands alone"),
            (b"0g", "line 1: 'g' is no hexadecimal digit"),
            (b"\n\nx", "line 3: 'x' is no hexadecimal digit"),
            (b"\xff", "line 1: '\\xff' is no hexadecimal digit"),
            (b"00 x", "line 1: a number from 1 must follow x"),
            (b"00 x0 ", "line 1: a number from 1 must follow x"),
            (b"00\nx1000000000", "line 2: a count is over 100000000"),
        ] {
            assert_eq!(decoded(text).expect_err(message), message);
        }
    }

    #[test]
    fn text_is_told_from_bytes() {
        for text in [&b"0105"[..], b"# row\n01 00 05\n", b"00 x64", b" 0a"] {
            assert!(is_text(text), "{text:?}");
        }
        for bytes in [&b""[..], b"\n", b"0", b"0a0", b"0\x01", b"20 zz", b"\x12\x00\x03"] {
            assert!(!is_text(bytes), "{bytes:?}");
        }
    }

    #[test]
    fn bytes_have_places() {
        let text = b"01 02 # two\n  03 x3 04";
        let places: Vec<_> = (0..7).map(|byte| place_in(text, byte).expect("a place")).collect();
        assert_eq!(places[..3], [(1, 1), (1, 4), (2, 3)]);
        assert_eq!(places[5], (2, 9));
    }
}
