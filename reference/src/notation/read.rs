//! Reading the notation: every length is counted here.

use super::tokens::{tokens, Misread, Placed, Token};
use super::VARIABLES;
use crate::body::{CLAUSE_TAG, MAPPING_TAG, NUMBERED_CLAUSE_TAG, NUMBERED_MAPPING_TAG};
use crate::card::{CARD_TAG, HIDDEN};
use crate::code::Symbol;
use crate::files::field;
use crate::language::{CLASS_TAG, KINDS, PRODUCTION_TAG};
use crate::names::Names;
use crate::pack::{BODY_TAG, LANGUAGE_TAG, TERM_TAG};
use crate::score::TABLE_TAG;
use crate::term::VARIABLES as TERM_VARIABLES;
use crate::translation::{SOURCE_TAG, TARGET_TAG};

/// Brackets are nested up to this depth.
const DEPTH: usize = 256;

/// A result, or what was expected and where.
type Read<T> = Result<T, Misread>;

/// The file that a text in the notation stands for.
pub fn assemble(text: &str, names: &Names) -> Read<Vec<u8>> {
    let tokens = tokens(text)?;
    let mut reader = Reader { tokens, at: 0, names, letters: vec![] };
    let bytes = reader.file()?;
    match reader.peek() {
        Token::End => Ok(bytes),
        _ => Err(reader.expected("nothing more")),
    }
}

/// Reads the parts of a text from first to last.
struct Reader<'a> {
    tokens: Vec<Placed>,
    at: usize,
    names: &'a Names,
    /// The letters of the arguments of the clause that is read.
    letters: Vec<String>,
}

impl Reader<'_> {
    /// The next part.
    fn peek(&self) -> &Token {
        &self.tokens[self.at].token
    }

    /// The next word or number.
    fn atom(&self) -> Option<&str> {
        match self.peek() {
            Token::Atom(text) => Some(text),
            _ => None,
        }
    }

    /// Steps over the next part.
    fn step(&mut self) {
        self.at = (self.at + 1).min(self.tokens.len() - 1);
    }

    /// What is said where something else was expected.
    fn expected(&self, what: &str) -> Misread {
        self.wrong(format!("{what} was expected, and {} stands here", self.peek()))
    }

    /// What is wrong at the next part.
    fn wrong(&self, what: String) -> Misread {
        let Placed { line, column, .. } = self.tokens[self.at];
        Misread { line, column, what }
    }

    /// Steps over a word, if it stands here.
    fn skip(&mut self, word: &str) -> bool {
        let there = self.atom() == Some(word);
        if there {
            self.step();
        }
        there
    }

    /// Steps over a word that must stand here.
    fn word(&mut self, word: &str) -> Read<()> {
        match self.skip(word) {
            true => Ok(()),
            false => Err(self.expected(word)),
        }
    }

    /// Steps over a mark, if it stands here.
    fn skip_mark(&mut self, mark: char) -> bool {
        let there = *self.peek() == Token::Mark(mark);
        if there {
            self.step();
        }
        there
    }

    /// Steps over a mark that must stand here.
    fn mark(&mut self, mark: char) -> Read<()> {
        match self.skip_mark(mark) {
            true => Ok(()),
            false => Err(self.expected(&mark.to_string())),
        }
    }

    /// Steps over the end of a line.
    fn line_end(&mut self) -> Read<()> {
        match self.peek() {
            Token::Line => {
                self.step();
                Ok(())
            }
            Token::End => Ok(()),
            _ => Err(self.expected("the end of the line")),
        }
    }

    /// A number within a range.
    fn number(&mut self, name: &str, least: i64, most: i64) -> Read<i64> {
        let number = self.atom().and_then(|text| text.parse::<i64>().ok());
        let inside = number.filter(|number| (least..=most).contains(number));
        let number =
            inside.ok_or_else(|| self.expected(&format!("{name} from {least} to {most}")))?;
        self.step();
        Ok(number)
    }

    /// A number of two bytes.
    fn two_bytes(&mut self, name: &str) -> Read<[u8; 2]> {
        Ok((self.number(name, 0, i64::from(u16::MAX))? as u16).to_be_bytes())
    }

    /// A kind by its number or its word.
    fn kind(&mut self) -> Read<u8> {
        let Some(text) = self.atom() else { return Err(self.expected("a kind")) };
        let word = text.starts_with(char::is_alphabetic);
        match self.names.kind_named(text) {
            Some(kind) => {
                self.step();
                Ok(kind)
            }
            None if word => Err(self.wrong(self.names.no_kind(text))),
            None => Ok(self.number("a kind", 0, KINDS as i64 - 1)? as u8),
        }
    }

    /// A production by result and name or by its word, and perhaps a number behind it; a result that
    /// is not known is a question mark.
    fn production(&mut self) -> Read<(Option<u8>, u8, u8)> {
        let Some(text) = self.atom() else { return Err(self.expected("a production")) };
        let found = match text.starts_with(char::is_alphabetic) {
            true => self.named_production(text)?,
            false => numbered_production(text)
                .ok_or_else(|| self.expected("a production such as 1.4, or its word"))?,
        };
        self.step();
        Ok(found)
    }

    /// A production by its word, and perhaps a number behind it.
    fn named_production(&self, text: &str) -> Read<(Option<u8>, u8, u8)> {
        let (word, number) = split_number(text).unwrap_or((text, 0));
        let (kind, name) = self
            .names
            .production_named(word)
            .ok_or_else(|| self.wrong(self.names.no_production(word)))?;
        Ok((Some(kind), name, number))
    }

    /// A production whose result is known, and which has no number.
    fn known_production(&mut self) -> Read<[u8; 2]> {
        let start = self.at;
        match self.production()? {
            (Some(kind), name, 0) => Ok([kind, name]),
            _ => {
                self.at = start;
                Err(self.expected("a production such as 1.4, or its word"))
            }
        }
    }

    /// Refuses a production, which stood at a place, whose result is no kind.
    fn check_result(&mut self, result: u8, start: usize) -> Read<()> {
        if usize::from(result) < KINDS {
            return Ok(());
        }
        self.at = start;
        Err(self.expected("a production of a kind from 0 to 31"))
    }

    /// Bytes of two digits each.
    fn bytes(&mut self) -> Vec<u8> {
        let mut bytes = vec![];
        while let Some(byte) = self.atom().and_then(byte_of) {
            bytes.push(byte);
            self.step();
        }
        bytes
    }

    /// A field, whose contents must not be too long.
    fn field(&self, tag: u8, contents: &[u8]) -> Read<Vec<u8>> {
        match u16::try_from(contents.len()) {
            Ok(_) => Ok(field(tag, contents)),
            Err(_) => Err(self.wrong(format!("a field has {} bytes, over 65535", contents.len()))),
        }
    }

    /// The whole file.
    fn file(&mut self) -> Read<Vec<u8>> {
        let sorts = "language, translation, pack, table, card, tree, loose, masked or index";
        let Some(sort) = self.atom().map(str::to_string) else {
            return Err(self.expected(sorts));
        };
        self.step();
        match sort.as_str() {
            "language" => self.headed(Self::language),
            "translation" => self.headed(Self::translation),
            "pack" => self.headed(Self::pack),
            "table" => self.headed(Self::table),
            "card" => self.headed(Self::card),
            "index" => self.headed(Self::index),
            "tree" | "masked" => self.plan(false),
            "loose" => self.plan(true),
            _ => {
                self.at -= 1;
                Err(self.expected(sorts))
            }
        }
    }

    /// What stands below a line that has ended.
    fn headed(&mut self, read: impl FnOnce(&mut Self) -> Read<Vec<u8>>) -> Read<Vec<u8>> {
        self.line_end()?;
        read(self)
    }

    /// The entries of a language.
    fn language(&mut self) -> Read<Vec<u8>> {
        let mut file = vec![];
        loop {
            file.extend(match self.atom() {
                Some("class") => self.class()?,
                Some("production") => self.language_production()?,
                _ => return Ok(file),
            });
            self.line_end()?;
        }
    }

    /// A token class.
    fn class(&mut self) -> Read<Vec<u8>> {
        self.step();
        let mut contents = vec![self.kind()?];
        self.mark(':')?;
        contents.extend(self.two_bytes("a lowest value")?);
        self.word("to")?;
        contents.extend(self.two_bytes("a highest value")?);
        if self.skip("in") {
            self.word("steps")?;
            self.word("of")?;
            contents.extend(self.two_bytes("a step")?);
        }
        self.field(CLASS_TAG, &contents)
    }

    /// A production of a language.
    fn language_production(&mut self) -> Read<Vec<u8>> {
        self.step();
        let start = self.at;
        let mut contents = self.known_production()?.to_vec();
        self.check_result(contents[0], start)?;
        self.mark('(')?;
        while !self.skip_mark(')') {
            if contents.len() == 10 {
                return Err(self.expected(") behind 8 arguments"));
            }
            contents.push(self.kind()?);
            self.skip_mark(',');
        }
        self.field(PRODUCTION_TAG, &contents)
    }

    /// A translation: source, target and body.
    fn translation(&mut self) -> Read<Vec<u8>> {
        let mut file = vec![];
        for (name, tag) in [("source", SOURCE_TAG), ("target", TARGET_TAG)] {
            self.word(name)?;
            let language = self.headed(Self::language)?;
            file.extend(self.field(tag, &language)?);
        }
        self.word("body")?;
        file.extend(self.headed(Self::body)?);
        Ok(file)
    }

    /// The entries of a body.
    fn body(&mut self) -> Read<Vec<u8>> {
        let mut file = vec![];
        loop {
            file.extend(match self.peek() {
                Token::Atom(text) if text == "mapping" => self.mapping()?,
                Token::Atom(text) if text == "body" || text == "term" => return Ok(file),
                Token::Atom(_) => self.clause()?,
                _ => return Ok(file),
            });
            self.line_end()?;
        }
    }

    /// A mapping.
    fn mapping(&mut self) -> Read<Vec<u8>> {
        self.step();
        let (kind, mut number) = (self.kind()?, None);
        if self.skip("by") {
            self.word("number")?;
            number = Some(self.number("a number", 1, 255)? as u8);
        }
        self.word("to")?;
        let target = self.kind()?;
        match number {
            Some(number) => self.field(NUMBERED_MAPPING_TAG, &[kind, number, target]),
            None => self.field(MAPPING_TAG, &[kind, target]),
        }
    }

    /// A clause, by numbers or by letters.
    fn clause(&mut self) -> Read<Vec<u8>> {
        self.skip("clause");
        let start = self.at;
        let (Some(result), name, number) = self.production()? else {
            self.at = start;
            return Err(self.expected("a production such as 1.4, or its word"));
        };
        self.check_result(result, start)?;
        self.letters.clear();
        if self.skip_mark('(') {
            self.read_letters()?;
            self.mark('=')?;
        } else {
            self.mark(':')?;
        }
        let mut contents = vec![result, name];
        contents.extend((number != 0).then_some(number));
        while !matches!(self.peek(), Token::Line | Token::End) {
            contents.extend(self.code(DEPTH)?);
        }
        let tag = if number == 0 { CLAUSE_TAG } else { NUMBERED_CLAUSE_TAG };
        self.field(tag, &contents)
    }

    /// The letters of a clause's arguments.
    fn read_letters(&mut self) -> Read<()> {
        while !self.skip_mark(')') {
            let letter = self.atom().filter(|text| text.starts_with(char::is_alphabetic));
            let Some(letter) = letter.map(str::to_string) else {
                return Err(self.expected("a letter for an argument"));
            };
            if self.letters.contains(&letter) || self.letters.len() == VARIABLES.len() {
                return Err(self.expected("another letter for one of at most 8 arguments"));
            }
            self.letters.push(letter);
            self.step();
            self.skip_mark(',');
        }
        Ok(())
    }

    /// The place of an atom among the letters of the clause, and the number behind it.
    fn letter(&self) -> Option<(u8, u8)> {
        let next = self.tokens.get(self.at + 1).map(|placed| &placed.token);
        let text = self.atom().filter(|_| next != Some(&Token::Mark('(')))?;
        let (letter, number) = match self.letters.iter().any(|letter| letter == text) {
            true => (text, 0),
            false => split_number(text)?,
        };
        let place = self.letters.iter().position(|known| known == letter)?;
        Some((place as u8, number))
    }

    /// One part of a code.
    fn code(&mut self, depth: usize) -> Read<Vec<u8>> {
        if self.skip("bytes") {
            return Ok(self.bytes());
        }
        let Some(text) = self.atom().filter(|_| depth > 0) else {
            return Err(self.expected("a production, a value or an argument such as #1"));
        };
        let symbol = match (argument_of(text).or(self.letter()), text.parse::<u16>()) {
            (Some((argument, number)), _) => Symbol::Argument(argument, number),
            (None, Ok(value)) => Symbol::Token(value),
            (None, Err(_)) => return self.code_production(depth),
        };
        self.step();
        let mut code = vec![];
        symbol.put(&mut code);
        Ok(code)
    }

    /// A production of a code with its arguments.
    fn code_production(&mut self, depth: usize) -> Read<Vec<u8>> {
        let start = self.at;
        let (_, name, number) = self.production()?;
        if number != 0 {
            self.at = start;
            return Err(self.expected("a production without a number"));
        }
        let mut code = vec![];
        Symbol::Production(name).put(&mut code);
        if self.skip_mark('(') {
            while !self.skip_mark(')') {
                code.extend(self.code(depth - 1)?);
                self.comma()?;
            }
        }
        Ok(code)
    }

    /// Steps over a comma, unless the brackets close here.
    fn comma(&mut self) -> Read<()> {
        match *self.peek() == Token::Mark(')') || self.skip_mark(',') {
            true => Ok(()),
            false => Err(self.expected(", or )")),
        }
    }

    /// A pack: languages, bodies and a term.
    fn pack(&mut self) -> Read<Vec<u8>> {
        let mut file = vec![];
        type Part<'a> = fn(&mut Reader<'a>) -> Read<Vec<u8>>;
        let parts: [(&str, u8, Part); 2] =
            [("language", LANGUAGE_TAG, Reader::language), ("body", BODY_TAG, Reader::body)];
        for (name, tag, read) in parts {
            let mut count = 0;
            while self.skip(name) {
                self.number(&format!("the number of a {name},"), count, count)?;
                self.line_end()?;
                let part = read(self)?;
                file.extend(self.field(tag, &part)?);
                count += 1;
            }
        }
        self.word("term")?;
        self.line_end()?;
        let term = match self.skip("bytes") {
            true => self.bytes(),
            false => self.term(true, DEPTH)?,
        };
        file.extend(self.field(TERM_TAG, &term)?);
        self.line_end()?;
        Ok(file)
    }

    /// A term, for a translation or for a language.
    fn term(&mut self, translation: bool, depth: usize) -> Read<Vec<u8>> {
        let wanted = if translation { "a translation term" } else { "a language term" };
        let Some(text) = self.atom().filter(|_| depth > 0).map(str::to_string) else {
            return Err(self.expected(wanted));
        };
        let high = if translation { 0x50 } else { 0x40 };
        let sign = |low: u8| vec![high + low];
        if let Some((letter, number)) = variable_of(&text) {
            if (letter == 'w') != translation {
                return Err(self.expected(wanted));
            }
            self.step();
            return Ok([sign(1), vec![number]].concat());
        }
        let (sign, sorts): (Vec<u8>, &[bool]) = match (text.as_str(), translation) {
            ("language", false) => {
                self.step();
                let number = self.number("the number of a language,", 0, 255)? as u8;
                return Ok([sign(0), vec![number]].concat());
            }
            ("translation", true) => return self.body_term(depth),
            ("let", _) => return self.let_term(translation, depth),
            ("without", _) => (sign(2), &[translation, false]),
            ("sum", _) => (sign(3), &[translation, translation]),
            ("source", false) => (sign(4), &[true]),
            ("target", false) => (sign(5), &[true]),
            ("join", true) => (sign(4), &[true, true]),
            ("identity", true) => (sign(5), &[false]),
            _ => return Err(self.expected(wanted)),
        };
        self.step();
        self.mark('(')?;
        let operands = self.operands(sorts, depth)?;
        self.mark(')')?;
        Ok([sign, operands].concat())
    }

    /// Terms of some sorts with commas between them.
    fn operands(&mut self, sorts: &[bool], depth: usize) -> Read<Vec<u8>> {
        let mut operands = vec![];
        for (place, &translation) in sorts.iter().enumerate() {
            if place > 0 {
                self.mark(',')?;
            }
            operands.extend(self.term(translation, depth - 1)?);
        }
        Ok(operands)
    }

    /// The term of a translation by its body.
    fn body_term(&mut self, depth: usize) -> Read<Vec<u8>> {
        self.step();
        self.mark('(')?;
        let operands = self.operands(&[false, false], depth)?;
        self.mark(',')?;
        self.word("body")?;
        let number = self.number("the number of a body,", 0, 255)? as u8;
        self.mark(')')?;
        Ok([vec![0x50], operands, vec![number]].concat())
    }

    /// A let with its variable.
    fn let_term(&mut self, translation: bool, depth: usize) -> Read<Vec<u8>> {
        self.step();
        self.mark('(')?;
        let Some((letter, number)) = self.atom().and_then(variable_of) else {
            return Err(self.expected("a variable such as v0 or w0"));
        };
        self.step();
        self.mark(',')?;
        let of_translation = letter == 'w';
        let low = if of_translation { 7 } else { 6 };
        let high = if translation { 0x50 } else { 0x40 };
        let operands = self.operands(&[of_translation, translation], depth)?;
        self.mark(')')?;
        Ok([vec![high + low, number], operands].concat())
    }

    /// A load table.
    fn table(&mut self) -> Read<Vec<u8>> {
        let mut file = vec![];
        while self.skip("line") {
            self.word("of")?;
            let mut contents = self.known_production()?.to_vec();
            self.mark(':')?;
            self.word("constant")?;
            contents.extend(self.figure("a constant")?);
            self.skip_mark(',');
            self.word("factors")?;
            self.mark('(')?;
            while !self.skip_mark(')') {
                contents.extend(self.figure("a factor")?);
                self.skip_mark(',');
            }
            file.extend(self.field(TABLE_TAG, &contents)?);
            self.line_end()?;
        }
        Ok(file)
    }

    /// A number of two bytes with a sign.
    fn figure(&mut self, name: &str) -> Read<[u8; 2]> {
        let (least, most) = (i64::from(i16::MIN), i64::from(i16::MAX));
        Ok((self.number(name, least, most)? as i16).to_be_bytes())
    }

    /// A card.
    fn card(&mut self) -> Read<Vec<u8>> {
        let mut kinds = vec![];
        while self.skip("kind") {
            kinds.push(self.kind()?);
            self.line_end()?;
        }
        self.field(CARD_TAG, &kinds)
    }

    /// An index.
    fn index(&mut self) -> Read<Vec<u8>> {
        let mut file = vec![];
        while self.skip("start") {
            file.extend(self.two_bytes("a start")?);
            self.skip_mark(',');
            self.word("length")?;
            file.extend(self.two_bytes("a length")?);
            self.line_end()?;
        }
        if self.skip("bytes") {
            file.extend(self.bytes());
            self.line_end()?;
        }
        Ok(file)
    }

    /// A tree, a masked plan, or a loose plan with two values for each token.
    fn plan(&mut self, loose: bool) -> Read<Vec<u8>> {
        self.kind()?;
        self.line_end()?;
        let mut plan = vec![];
        self.node(loose, DEPTH, &mut plan)?;
        self.line_end()?;
        Ok(plan)
    }

    /// Appends a node of a plan.
    fn node(&mut self, loose: bool, depth: usize, plan: &mut Vec<u8>) -> Read<()> {
        let Some(text) = self.atom().filter(|_| depth > 0) else {
            return Err(self.expected("a production or a value"));
        };
        if text == "hidden" {
            plan.push(HIDDEN);
            self.step();
            return Ok(());
        }
        if text.bytes().all(|byte| byte.is_ascii_digit()) {
            return self.token(loose, plan);
        }
        let start = self.at;
        let (_, name, number) = self.production()?;
        if number != 0 {
            self.at = start;
            return Err(self.expected("a production without a number"));
        }
        plan.push(name);
        if self.skip_mark('(') {
            while !self.skip_mark(')') {
                self.node(loose, depth - 1, plan)?;
                self.comma()?;
            }
        }
        Ok(())
    }

    /// Appends a token of a plan: a value, or a least and a greatest.
    fn token(&mut self, loose: bool, plan: &mut Vec<u8>) -> Read<()> {
        let least = self.two_bytes("a value")?;
        plan.extend(least);
        if loose {
            let greatest = match self.skip("to") {
                true => self.two_bytes("a greatest value")?,
                false => least,
            };
            plan.extend(greatest);
        }
        Ok(())
    }
}

/// Whether some text is digits only.
fn digits<T: std::str::FromStr>(text: &str) -> Option<T> {
    text.bytes().all(|byte| byte.is_ascii_digit()).then(|| text.parse().ok()).flatten()
}

/// A production such as `1.4`, `1.4.2` or `?.4`.
fn numbered_production(text: &str) -> Option<(Option<u8>, u8, u8)> {
    let mut parts = text.split('.');
    let kind = match parts.next()? {
        "?" => None,
        kind => Some(digits::<u8>(kind)?),
    };
    let name = digits(parts.next()?)?;
    let number = parts.next().map_or(Some(0), |text| digits(text).filter(|number| *number != 0))?;
    parts.next().is_none().then_some((kind, name, number))
}

/// A word with a number other than 0 behind a point.
fn split_number(text: &str) -> Option<(&str, u8)> {
    let (word, number) = text.rsplit_once('.')?;
    digits(number).filter(|number| *number != 0).map(|number| (word, number))
}

/// An argument such as `#1` or `#1.2`, counted from 0.
fn argument_of(text: &str) -> Option<(u8, u8)> {
    let text = text.strip_prefix('#')?;
    let (argument, number) = split_number(text).unwrap_or((text, 0));
    Some((digits::<u8>(argument)?.checked_sub(1)?, number))
}

/// A variable of a term such as `v0` or `w15`.
fn variable_of(text: &str) -> Option<(char, u8)> {
    let letter = text.chars().next().filter(|letter| matches!(letter, 'v' | 'w'))?;
    let number = digits(&text[1..]).filter(|number| usize::from(*number) < TERM_VARIABLES)?;
    (text.len() > 1).then_some((letter, number))
}

/// A byte of two hexadecimal digits.
fn byte_of(text: &str) -> Option<u8> {
    let two = text.len() == 2 && text.bytes().all(|byte| byte.is_ascii_hexdigit());
    two.then(|| u8::from_str_radix(text, 16).ok()).flatten()
}
