//! Trees as XML: production 1.4 is an element x1.4 around its arguments, a token of kind 2 with
//! value 5 is `<t2>5</t2>`.

use crate::grammar::Grammar;
use crate::language::{read_language, Class, Language, KINDS};
use crate::outcome::{require, Outcome, Refusal};
use crate::tree::{read_tree, root_kind, Tally, TREE_LEVELS};

/// The longest tag is a closing one of a production: `</x31.255>`.
const TAG_MOST: usize = 10;
/// A number of two bytes has at most this many digits.
const DIGITS_MOST: usize = 5;

/// A short text.
#[derive(Clone, Copy, Default)]
struct Word {
    bytes: [u8; TAG_MOST],
    length: u8,
}

impl Word {
    /// Appends some bytes, for which there must be room.
    fn put(mut self, bytes: &[u8]) -> Word {
        let length = usize::from(self.length);
        self.bytes[length..length + bytes.len()].copy_from_slice(bytes);
        self.length += bytes.len() as u8;
        self
    }

    /// Appends the digits of a number.
    fn number(self, number: u16) -> Word {
        self.put(Digits::of(number).text())
    }

    /// The bytes of the text.
    #[inline]
    fn text(&self) -> &[u8] {
        &self.bytes[..usize::from(self.length)]
    }
}

/// The decimal digits of a number, without leading zeros.
struct Digits {
    bytes: [u8; DIGITS_MOST],
    first: usize,
}

impl Digits {
    /// Writes the digits of a number from the last to the first.
    #[inline]
    fn of(number: u16) -> Digits {
        let mut digits = Digits { bytes: [b'0'; DIGITS_MOST], first: DIGITS_MOST - 1 };
        let mut rest = number;
        while rest > 9 {
            digits.bytes[digits.first] = b'0' + (rest % 10) as u8;
            digits.first -= 1;
            rest /= 10;
        }
        digits.bytes[digits.first] = b'0' + rest as u8;
        digits
    }

    /// The digits.
    #[inline]
    fn text(&self) -> &[u8] {
        &self.bytes[self.first..]
    }

    /// How many digits a number has.
    #[inline]
    fn count(number: u16) -> u64 {
        match number {
            0..=9 => 1,
            10..=99 => 2,
            100..=999 => 3,
            1000..=9999 => 4,
            _ => 5,
        }
    }
}

/// The opening and the closing tag of an element.
#[derive(Clone, Copy, Default)]
struct Tags {
    open: Word,
    close: Word,
}

impl Tags {
    /// The tags of an element with that name.
    fn new(name: Word) -> Tags {
        let close = Word::default().put(b"</").put(name.text()).put(b">");
        Tags { open: Word::default().put(b"<").put(name.text()).put(b">"), close }
    }

    /// The bytes of both.
    #[inline]
    fn length(&self) -> u64 {
        u64::from(self.open.length) + u64::from(self.close.length)
    }
}

/// The tags of a language: of its tokens by kind, of its productions by place, and for each kind
/// how the opening tags of its productions start.
struct Vocabulary {
    tokens: [Tags; KINDS],
    productions: Vec<Tags>,
    starts: [Word; KINDS],
}

impl Vocabulary {
    /// The tags of a well-formed language.
    fn new(language: &Language) -> Vocabulary {
        let token = |kind| Tags::new(Word::default().put(b"t").number(kind as u16));
        let start = |kind| Word::default().put(b"<x").number(kind as u16).put(b".");
        let productions = language.productions.iter().map(|production| {
            let name = Word::default().put(b"x").number(production.result.into()).put(b".");
            Tags::new(name.number(production.name.into()))
        });
        Vocabulary {
            tokens: std::array::from_fn(token),
            productions: productions.collect(),
            starts: std::array::from_fn(start),
        }
    }

    /// The tags of a token of a kind.
    #[inline]
    fn token(&self, kind: u8) -> &Tags {
        &self.tokens[kind as usize % KINDS]
    }
}

/// Adds up the length of a tree's text.
struct TextLength<'a> {
    vocabulary: &'a Vocabulary,
    length: u64,
}

impl Tally for TextLength<'_> {
    type Weight = ();

    #[inline]
    fn token(&mut self, kind: u8, value: u16, (): ()) {
        self.length += self.vocabulary.token(kind).length() + Digits::count(value);
    }

    #[inline]
    fn production(&mut self, place: usize, (): ()) {
        self.length += self.vocabulary.productions[place].length();
    }

    #[inline]
    fn argument(&mut self, _: usize, _: usize, (): ()) {}
}

/// Writes the text of a legal tree into an output that is long enough.
struct Exporter<'a> {
    grammar: &'a Grammar<'a>,
    vocabulary: &'a Vocabulary,
    rest: &'a [u8],
    output: &'a mut [u8],
    length: usize,
}

impl Exporter<'_> {
    /// Writes the text of the next tree, which is of the kind.
    fn write(&mut self, kind: u8) {
        match self.grammar.class(kind) {
            Some(_) => self.write_token(kind),
            None => self.write_production(kind),
        }
    }

    /// Writes the text of a token.
    #[inline]
    fn write_token(&mut self, kind: u8) {
        let (value, rest) = self.rest.split_first_chunk().expect("a legal tree");
        self.rest = rest;
        let tags = self.vocabulary.token(kind);
        self.put(tags.open.text());
        self.put(Digits::of(u16::from_be_bytes(*value)).text());
        self.put(tags.close.text());
    }

    /// Writes the text of a production and its arguments.
    fn write_production(&mut self, kind: u8) {
        let (&name, rest) = self.rest.split_first().expect("a legal tree");
        self.rest = rest;
        let place = self.grammar.place(kind, name).expect("a legal tree");
        let tags = &self.vocabulary.productions[place];
        self.put(tags.open.text());
        for &argument in self.grammar.production(place).arguments() {
            self.write(argument);
        }
        self.put(tags.close.text());
    }

    /// Writes some bytes.
    #[inline]
    fn put(&mut self, bytes: &[u8]) {
        self.output[self.length..self.length + bytes.len()].copy_from_slice(bytes);
        self.length += bytes.len();
    }
}

/// Exports a tree of the root kind as XML.
pub fn export(language: &[u8], root: u32, tree: &[u8], output: &mut [u8]) -> Outcome {
    write_export(language, root, tree, output).into()
}

/// The tests of `export` in order, and then its result.
fn write_export(
    language: &[u8],
    root: u32,
    tree: &[u8],
    output: &mut [u8],
) -> Result<u64, Refusal> {
    let language = read_language(language)?;
    let root = root_kind(&language, root)?;
    let (grammar, vocabulary) = (Grammar::new(&language), Vocabulary::new(&language));
    let tally = TextLength { vocabulary: &vocabulary, length: 0 };
    let length = read_tree(&grammar, root, tree, tally, ())?.length;
    require(length <= output.len() as u64, Refusal::Output)?;
    let (grammar, vocabulary) = (&grammar, &vocabulary);
    let mut exporter = Exporter { grammar, vocabulary, rest: tree, output, length: 0 };
    exporter.write(root);
    debug_assert_eq!(exporter.length as u64, length);
    Ok(length)
}

/// The length of the text of a legal tree.
pub fn text_length(language: &Language, root: u8, tree: &[u8]) -> u64 {
    let (grammar, vocabulary) = (Grammar::new(language), Vocabulary::new(language));
    let tally = TextLength { vocabulary: &vocabulary, length: 0 };
    read_tree(&grammar, root, tree, tally, ()).map_or(0, |tally| tally.length)
}

/// Reads a text from left to right and gathers the tree that it is the export of.
struct Importer<'a> {
    grammar: &'a Grammar<'a>,
    vocabulary: &'a Vocabulary,
    rest: &'a [u8],
    tree: Vec<u8>,
}

impl Importer<'_> {
    /// Reads the text of a tree of a kind with at most `levels` levels.
    fn read(&mut self, kind: u8, levels: usize) -> Result<(), Refusal> {
        match self.grammar.class(kind) {
            Some(class) => self.read_token(class),
            None => self.read_production(kind, levels),
        }
    }

    /// Reads the text of a token of a class.
    #[inline]
    fn read_token(&mut self, class: Class) -> Result<(), Refusal> {
        let tags = self.vocabulary.token(class.kind);
        self.expect(tags.open.text())?;
        let value = self.read_number()?;
        require(class.has(value), Refusal::Text)?;
        self.expect(tags.close.text())?;
        self.tree.extend_from_slice(&value.to_be_bytes());
        Ok(())
    }

    /// Reads the text of a production and its arguments, if a level is left for it.
    fn read_production(&mut self, kind: u8, levels: usize) -> Result<(), Refusal> {
        require(levels > 0, Refusal::Depth)?;
        self.expect(self.vocabulary.starts[kind as usize % KINDS].text())?;
        let name = u8::try_from(self.read_number()?).map_err(|_| Refusal::Text)?;
        let place = self.grammar.place(kind, name).ok_or(Refusal::Text)?;
        self.expect(b">")?;
        self.tree.push(name);
        for &argument in self.grammar.production(place).arguments() {
            self.read(argument, levels - 1)?;
        }
        self.expect(self.vocabulary.productions[place].close.text())
    }

    /// Steps over these bytes, or refuses others.
    #[inline]
    fn expect(&mut self, bytes: &[u8]) -> Result<(), Refusal> {
        self.rest = self.rest.strip_prefix(bytes).ok_or(Refusal::Text)?;
        Ok(())
    }

    /// Reads a number of two bytes that has no leading zeros.
    #[inline]
    fn read_number(&mut self) -> Result<u16, Refusal> {
        let head = &self.rest[..self.rest.len().min(DIGITS_MOST)];
        let count = head.iter().take_while(|byte| byte.is_ascii_digit()).count();
        let (digits, rest) = self.rest.split_at(count);
        require(count > 0 && (digits[0] != b'0' || count == 1), Refusal::Text)?;
        self.rest = rest;
        let number = digits.iter().fold(0, |sum, digit| 10 * sum + u32::from(digit - b'0'));
        u16::try_from(number).map_err(|_| Refusal::Text)
    }
}

/// Imports the tree of the root kind whose export the text is.
pub fn import(language: &[u8], root: u32, text: &[u8], output: &mut [u8]) -> Outcome {
    write_import(language, root, text, output).into()
}

/// The tests of `import` in order, and then its result.
fn write_import(
    language: &[u8],
    root: u32,
    text: &[u8],
    output: &mut [u8],
) -> Result<u64, Refusal> {
    let language = read_language(language)?;
    let root = root_kind(&language, root)?;
    let (grammar, vocabulary) = (Grammar::new(&language), Vocabulary::new(&language));
    let (grammar, vocabulary) = (&grammar, &vocabulary);
    let mut importer = Importer { grammar, vocabulary, rest: text, tree: vec![] };
    importer.read(root, TREE_LEVELS)?;
    require(importer.rest.is_empty(), Refusal::Text)?;
    let place = output.get_mut(..importer.tree.len()).ok_or(Refusal::Output)?;
    place.copy_from_slice(&importer.tree);
    Ok(importer.tree.len() as u64)
}
