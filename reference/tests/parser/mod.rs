//! A small parser of XML: elements, attributes, text and a declaration, without entities.
#![allow(dead_code)]

/// An element with its attributes and contents.
#[derive(Clone, Debug, Default, PartialEq, Eq)]
pub struct Element {
    pub name: String,
    pub attributes: Vec<(String, String)>,
    pub contents: Vec<Content>,
}

/// What stands in an element.
#[derive(Clone, Debug, PartialEq, Eq)]
pub enum Content {
    Element(Element),
    Text(String),
}

impl Element {
    /// The elements in this one.
    pub fn children(&self) -> Vec<&Element> {
        let contents = self.contents.iter();
        let elements = contents.filter_map(|content| match content {
            Content::Element(element) => Some(element),
            Content::Text(_) => None,
        });
        elements.collect()
    }

    /// The value of an attribute.
    pub fn attribute(&self, name: &str) -> Option<&str> {
        let mut attributes = self.attributes.iter();
        attributes.find(|(other, _)| other == name).map(|(_, value)| value.as_str())
    }

    /// All text in the element.
    pub fn text(&self) -> String {
        let text = |content: &Content| match content {
            Content::Element(element) => element.text(),
            Content::Text(text) => text.clone(),
        };
        self.contents.iter().map(text).collect()
    }
}

/// Reads a text from left to right.
struct Parser<'a> {
    rest: &'a str,
}

impl<'a> Parser<'a> {
    /// Steps over a text, if it stands here.
    fn skip(&mut self, text: &str) -> bool {
        let rest = self.rest.strip_prefix(text);
        self.rest = rest.unwrap_or(self.rest);
        rest.is_some()
    }

    /// Takes what stands before the first character that fails the test.
    fn take(&mut self, test: impl Fn(char) -> bool) -> &'a str {
        let end = self.rest.find(|character| !test(character)).unwrap_or(self.rest.len());
        let (taken, rest) = self.rest.split_at(end);
        self.rest = rest;
        taken
    }

    /// A name: a letter, a colon or an underscore, then also digits, points and hyphens.
    fn name(&mut self) -> Option<String> {
        let first = |c: char| c.is_alphabetic() || c == ':' || c == '_';
        let name = self.take(|c| first(c) || c.is_numeric() || c == '.' || c == '-');
        name.starts_with(first).then(|| name.to_string())
    }

    /// An attribute behind white space, if one follows.
    fn attribute(&mut self) -> Option<(String, String)> {
        self.take(char::is_whitespace);
        let name = self.name()?;
        let quoted = self.skip("=\"");
        let value = self.take(|c| c != '"' && c != '<').to_string();
        (quoted && self.skip("\"")).then_some((name, value))
    }

    /// An element whose opening tag starts here.
    fn element(&mut self) -> Option<Element> {
        if !self.skip("<") {
            return None;
        }
        let mut element = Element { name: self.name()?, ..Element::default() };
        element.attributes = std::iter::from_fn(|| self.attribute()).collect();
        if self.skip("/>") {
            return Some(element);
        }
        if !self.skip(">") {
            return None;
        }
        while !self.rest.starts_with("</") {
            element.contents.push(self.content()?);
        }
        let closed = self.skip("</") && self.name()? == element.name && self.skip(">");
        closed.then_some(element)
    }

    /// Text or an element.
    fn content(&mut self) -> Option<Content> {
        let text = self.take(|c| c != '<' && c != '&');
        if text.is_empty() {
            return self.element().map(Content::Element);
        }
        Some(Content::Text(text.to_string()))
    }
}

/// The one element of a text that is well formed.
pub fn parse(text: &str) -> Option<Element> {
    let mut parser = Parser { rest: text };
    if parser.skip("<?xml") {
        parser.take(|c| c != '>');
        parser.skip(">");
    }
    parser.take(char::is_whitespace);
    let element = parser.element()?;
    parser.take(char::is_whitespace);
    parser.rest.is_empty().then_some(element)
}

#[test]
fn the_parser_takes_what_is_well_formed() {
    for text in ["<a/>", "<a></a>", "<?xml version=\"1.0\"?>\n<a b=\"c\"><d>5</d>e</a>\n"] {
        assert!(parse(text).is_some(), "{text}");
    }
    for text in ["", "a", "<a>", "<a></b>", "<a/><a/>", "<1/>", "<a b></a>", "<a>&</a>", "<a><b>"] {
        assert!(parse(text).is_none(), "{text}");
    }
}
