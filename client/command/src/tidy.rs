//! Texts in XML without what editors put around and between tags.

/// The byte order mark.
const MARK: &[u8] = b"\xEF\xBB\xBF";
/// What a declaration begins and ends with.
const OPEN: &[u8] = b"<?xml";
const CLOSE: &[u8] = b"?>";

/// A text that was tidied, and what was dropped from it, in words.
#[derive(Debug, PartialEq, Eq)]
pub struct Tidied {
    pub text: Vec<u8>,
    pub dropped: Vec<String>,
}

/// Whether a byte is a space between tags.
fn is_space(byte: &u8) -> bool {
    matches!(byte, b' ' | b'\t' | b'\r' | b'\n')
}

/// The bytes behind the spaces at the start.
fn behind_spaces(text: &[u8]) -> &[u8] {
    let count = text.iter().take_while(|byte| is_space(byte)).count();
    &text[count..]
}

/// Drops a byte order mark, a declaration, and spaces between tags, before the first and behind the
/// last.
pub fn tidied(text: &[u8]) -> Tidied {
    let mut dropped = vec![];
    let mut rest = text;
    if let Some(behind) = rest.strip_prefix(MARK) {
        dropped.push("a byte order mark".to_string());
        rest = behind;
    }
    if let Some(behind) = behind_declaration(rest) {
        dropped.push("a declaration".to_string());
        rest = behind;
    }
    let text = without_spaces(rest);
    match rest.len() - text.len() {
        0 => (),
        1 => dropped.push("1 space between tags".to_string()),
        count => dropped.push(format!("{count} spaces between tags")),
    }
    Tidied { text, dropped }
}

/// What stands behind the declaration at the start of a text, if there is one.
fn behind_declaration(text: &[u8]) -> Option<&[u8]> {
    let inside = behind_spaces(text).strip_prefix(OPEN)?;
    let end = inside.windows(CLOSE.len()).position(|two| two == CLOSE)?;
    Some(&inside[end + CLOSE.len()..])
}

/// The text without the spaces that stand between two tags, or between a tag and an end.
fn without_spaces(text: &[u8]) -> Vec<u8> {
    let (mut kept, mut at) = (vec![], 0);
    while at < text.len() {
        let count = text[at..].iter().take_while(|byte| is_space(byte)).count();
        let open = matches!(text.get(at + count), None | Some(b'<'));
        let close = matches!(kept.last(), None | Some(b'>'));
        if count > 0 && open && close {
            at += count;
        } else {
            kept.extend_from_slice(&text[at..at + count.max(1)]);
            at += count.max(1);
        }
    }
    kept
}

#[cfg(test)]
mod tests {
    use super::*;

    #[test]
    fn what_editors_add_is_dropped() {
        let text = b"\xEF\xBB\xBF<?xml version=\"1.0\"?>\n<x1.1>\n  <t2>5</t2>\r\n</x1.1>\n";
        let found = tidied(text);
        assert_eq!(found.text, b"<x1.1><t2>5</t2></x1.1>");
        assert_eq!(found.dropped, ["a byte order mark", "a declaration", "7 spaces between tags"]);
    }

    #[test]
    fn spaces_within_a_token_and_other_texts_stay() {
        for text in [&b"<t2> 5 </t2>"[..], b"<t2>5</t2>", b"", b"<?xml", b"a b"] {
            assert_eq!(tidied(text), Tidied { text: text.to_vec(), dropped: vec![] });
        }
        assert_eq!(tidied(b" \n").text, b"");
    }
}
