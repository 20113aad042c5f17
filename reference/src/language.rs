//! Languages: token classes and productions, decoded from fields 11 and 12.

use crate::field::{put_header, two_bytes, Field, Fields, HEADER};
use crate::outcome::{require, Outcome, Refusal};
use std::num::NonZeroU16;

/// A language has at most this many bytes.
pub const LANGUAGE_LIMIT: usize = 1024;
/// Kinds are the numbers below this one.
pub const KINDS: usize = 32;
/// A production has at most this many arguments.
pub const ARGUMENTS: usize = 8;

pub const CLASS_TAG: u8 = 0x11;
pub const PRODUCTION_TAG: u8 = 0x12;
/// The lengths of a field 11 without and with a step.
const CLASS_LENGTH: usize = 5;
const STEPPED_CLASS_LENGTH: usize = 7;

/// A set of kinds, one bit for each.
pub type Kinds = u32;

/// A token class: a value is legal if it is `low` plus a multiple of `step` and at most `high`.
#[derive(Clone, Copy, Debug, PartialEq, Eq)]
pub struct Class {
    pub kind: u8,
    pub low: u16,
    pub high: u16,
    pub step: NonZeroU16,
}

impl Class {
    /// A class of step 1.
    pub fn plain(kind: u8, low: u16, high: u16) -> Class {
        Class { kind, low, high, step: NonZeroU16::MIN }
    }

    /// Whether a value is legal.
    #[inline]
    pub fn has(&self, value: u16) -> bool {
        self.low <= value
            && value <= self.high
            && (self.step == NonZeroU16::MIN || (value - self.low) % self.step == 0)
    }

    /// The highest legal value.
    pub fn last(&self) -> u16 {
        self.high - (self.high - self.low) % self.step
    }

    /// Whether each legal value of another class is legal in this one; kinds do not matter.
    pub fn contains(&self, other: &Class) -> bool {
        let last = other.last();
        self.has(other.low)
            && last <= self.high
            && (last == other.low || other.step.get() % self.step == 0)
    }

    /// The legal values in words.
    pub fn range(&self) -> String {
        let Class { low, high, step, .. } = self;
        match step.get() {
            1 => format!("{low} to {high}"),
            step => format!("{low} to {high} in steps of {step}"),
        }
    }

    /// The length of the field's contents: a step of 1 is not written.
    fn length(&self) -> usize {
        if self.step == NonZeroU16::MIN {
            CLASS_LENGTH
        } else {
            STEPPED_CLASS_LENGTH
        }
    }

    /// Appends the field.
    fn encode(&self, output: &mut Vec<u8>) {
        let length = self.length();
        put_header(output, CLASS_TAG, length);
        output.push(self.kind);
        output.extend_from_slice(&self.low.to_be_bytes());
        output.extend_from_slice(&self.high.to_be_bytes());
        if length == STEPPED_CLASS_LENGTH {
            output.extend_from_slice(&self.step.get().to_be_bytes());
        }
    }
}

/// A production: result kind, name and argument kinds (unused places are zero).
#[derive(Clone, Copy, Debug, PartialEq, Eq)]
pub struct Production {
    pub result: u8,
    pub name: u8,
    count: u8,
    arguments: [u8; ARGUMENTS],
}

/// Classes by rising kind and productions by rising key.
#[derive(Clone, Debug, Default, PartialEq, Eq)]
pub struct Language {
    pub classes: Vec<Class>,
    pub productions: Vec<Production>,
}

/// A decoded value, and whether its fields stand in strictly rising order.
pub struct Draft<T> {
    pub value: T,
    pub rising: bool,
}

impl Production {
    /// A production with at most eight arguments.
    pub fn new(result: u8, name: u8, kinds: &[u8]) -> Production {
        let mut arguments = [0; ARGUMENTS];
        arguments[..kinds.len()].copy_from_slice(kinds);
        Production { result, name, count: kinds.len() as u8, arguments }
    }

    /// The argument kinds in order.
    #[inline]
    pub fn arguments(&self) -> &[u8] {
        &self.arguments[..self.count as usize]
    }

    /// Result, point and name.
    pub fn title(&self) -> String {
        format!("{}.{}", self.result, self.name)
    }

    /// The argument kinds in brackets.
    pub fn argument_list(&self) -> String {
        let kinds: Vec<String> = self.arguments().iter().map(u8::to_string).collect();
        format!("({})", kinds.join(" "))
    }

    /// Result and name as one number: productions stand in its rising order.
    pub fn key(&self) -> u16 {
        two_bytes(self.result, self.name)
    }
}

impl Language {
    /// Decodes all fields; refuses a broken one.
    pub fn decode(bytes: &[u8]) -> Result<Draft<Language>, Refusal> {
        let mut draft = Draft { value: Language::with_room(bytes.len()), rising: true };
        let mut last = None;
        for field in Fields::new(bytes) {
            let key = draft.value.decode_field(field?)?;
            draft.rising &= last < Some(key);
            last = Some(key);
        }
        Ok(draft)
    }

    /// An empty language with room for what that many bytes can hold.
    fn with_room(bytes: usize) -> Language {
        Language {
            classes: Vec::with_capacity((bytes / (HEADER + CLASS_LENGTH)).min(KINDS)),
            productions: Vec::with_capacity(bytes / (HEADER + 2)),
        }
    }

    /// Adds the class or production of one field and gives its place in the order of fields.
    fn decode_field(&mut self, field: Field) -> Result<u32, Refusal> {
        match field.tag {
            CLASS_TAG => {
                let class = decode_class(field.contents)?;
                self.classes.push(class);
                Ok(u32::from(class.kind))
            }
            PRODUCTION_TAG => {
                let production = decode_production(field.contents)?;
                self.productions.push(production);
                Ok(0x1_0000 + u32::from(production.key()))
            }
            _ => Err(Refusal::Broken),
        }
    }

    /// The number of bytes that `encode` writes.
    pub fn encoded_length(&self) -> usize {
        let classes: usize = self.classes.iter().map(|class| HEADER + class.length()).sum();
        let productions = self.productions.iter();
        let arguments: usize = productions.map(|production| production.arguments().len()).sum();
        classes + self.productions.len() * (HEADER + 2) + arguments
    }

    /// Appends the fields of the language.
    pub fn encode(&self, output: &mut Vec<u8>) {
        for class in &self.classes {
            class.encode(output);
        }
        for production in &self.productions {
            put_header(output, PRODUCTION_TAG, 2 + production.arguments().len());
            output.extend_from_slice(&[production.result, production.name]);
            output.extend_from_slice(production.arguments());
        }
    }

    /// The kinds that have a class.
    pub fn class_kinds(&self) -> Kinds {
        self.classes.iter().fold(0, |kinds, class| kinds | bit(class.kind))
    }

    /// The kinds that are a result.
    pub fn result_kinds(&self) -> Kinds {
        self.productions.iter().fold(0, |kinds, production| kinds | bit(production.result))
    }

    /// The kinds in the language: of a class, a result or an argument.
    pub fn kinds(&self) -> Kinds {
        let arguments = self.productions.iter().flat_map(Production::arguments);
        let arguments = arguments.fold(0, |kinds, &kind| kinds | bit(kind));
        self.class_kinds() | self.result_kinds() | arguments
    }

    /// Whether some kind is both a class and a result.
    pub fn clashes(&self) -> bool {
        self.class_kinds() & self.result_kinds() != 0
    }
}

/// The set with one kind in it.
#[inline]
pub fn bit(kind: u8) -> Kinds {
    1 << kind
}

/// Refuses a number that is not a kind.
pub fn check_kind(kind: u8) -> Result<u8, Refusal> {
    require((kind as usize) < KINDS, Refusal::Broken)?;
    Ok(kind)
}

/// Decodes the contents of a field 11.
fn decode_class(contents: &[u8]) -> Result<Class, Refusal> {
    let [kind, low_high, low_low, high_high, high_low, ref step @ ..] = *contents else {
        return Err(Refusal::Broken);
    };
    let low = two_bytes(low_high, low_low);
    let high = two_bytes(high_high, high_low);
    require(low <= high, Refusal::Broken)?;
    Ok(Class { kind: check_kind(kind)?, low, high, step: decode_step(step)? })
}

/// Decodes the step of a class: none is written, or one that is not 0.
fn decode_step(bytes: &[u8]) -> Result<NonZeroU16, Refusal> {
    match *bytes {
        [] => Ok(NonZeroU16::MIN),
        [high, low] => NonZeroU16::new(two_bytes(high, low)).ok_or(Refusal::Broken),
        _ => Err(Refusal::Broken),
    }
}

/// Decodes the contents of a field 12.
fn decode_production(contents: &[u8]) -> Result<Production, Refusal> {
    let [result, name, arguments @ ..] = contents else {
        return Err(Refusal::Broken);
    };
    require(arguments.len() <= ARGUMENTS, Refusal::Broken)?;
    check_kind(*result)?;
    for &argument in arguments {
        check_kind(argument)?;
    }
    Ok(Production::new(*result, *name, arguments))
}

/// Reads a language that must pass the whole check.
pub fn read_language(bytes: &[u8]) -> Result<Language, Refusal> {
    require(bytes.len() <= LANGUAGE_LIMIT, Refusal::TooLong)?;
    let draft = Language::decode(bytes)?;
    require(draft.rising, Refusal::Order)?;
    require(!draft.value.clashes(), Refusal::Clash)?;
    Ok(draft.value)
}

/// Checks a language.
pub fn check_language(language: &[u8]) -> Outcome {
    read_language(language).map(|_| ()).into()
}

#[cfg(test)]
mod tests {
    use super::*;
    use crate::generate::Random;

    /// A class of a range by a step.
    fn class(low: u16, high: u16, step: u16) -> Class {
        let step = NonZeroU16::new(step).expect("a step is not 0");
        Class { step, ..Class::plain(0, low, high) }
    }

    /// The legal values one by one: low, then each one step more, up to high.
    fn values(class: &Class) -> Vec<u16> {
        let steps = (u32::from(class.low)..=u32::from(class.high)).step_by(class.step.get().into());
        steps.map(|value| value as u16).collect()
    }

    /// A small range at the lowest or the highest values; the step may be beyond it.
    fn small_class(random: &mut Random, first: u16) -> Class {
        let (one, other) = (random.below(40) as u16, random.below(40) as u16);
        let step = match random.below(6) {
            0 => random.within(1..=65_535) as u16,
            1 => 1,
            _ => random.within(1..=12) as u16,
        };
        class(first + one.min(other), first + one.max(other), step)
    }

    #[test]
    fn containment_is_that_of_all_values() {
        let mut random = Random::new(10);
        let mut contained = 0;
        for case in 0..100_000 {
            let first = random.pick(&[0, 1, 200, 65_496]);
            let (one, other) = (small_class(&mut random, first), small_class(&mut random, first));
            let all = values(&one);
            let inside = values(&other).iter().all(|value| all.contains(value));
            assert_eq!(one.contains(&other), inside, "case {case}: {one:?} {other:?}");
            contained += usize::from(inside);
        }
        assert!(contained > 5000, "{contained}");
    }

    #[test]
    fn containment_of_the_widest_ranges() {
        let (whole, ends) = (class(0, 65_535, 1), class(0, 65_535, 65_535));
        let (even, odd) = (class(0, 65_535, 2), class(1, 65_535, 2));
        let (last, thirds) = (class(1, 65_535, 65_535), class(0, 65_535, 3));
        for other in [ends, even, odd, last, thirds, whole] {
            assert!(whole.contains(&other) && (other == whole || !other.contains(&whole)));
        }
        assert!(!even.contains(&ends) && thirds.contains(&ends));
        assert!(odd.contains(&last) && !last.contains(&odd) && !even.contains(&last));
        assert!(!even.contains(&odd) && !even.contains(&thirds));
        assert_eq!([ends, even, odd, last].map(|class| class.last()), [65_535, 65_534, 65_535, 1]);
    }

    #[test]
    fn legal_values_are_low_and_each_step_up_to_high() {
        let mut random = Random::new(11);
        for _ in 0..200 {
            let first = random.pick(&[0, 1, 200, 65_496]);
            let class = small_class(&mut random, first);
            let legal: Vec<u16> = (0..=u16::MAX).filter(|&value| class.has(value)).collect();
            assert_eq!(legal, values(&class), "{class:?}");
            assert_eq!(legal.last(), Some(&class.last()), "{class:?}");
        }
    }
}
