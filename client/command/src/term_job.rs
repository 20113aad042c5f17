//! Verbs on translations: the command puts a pack together of its operands and one sign, and the
//! library reduces it.

use crate::arguments::Call;
use crate::given::Given;
use crate::input::file_name;
use crate::job::{operand, sort_of, Job, Refused, Translator};
use crate::language_file::{source_of, target_of};
use crate::options::Sort;
use crate::{Failure, Streams};
use algebra::{Language, Pack, Refusal, PACK_BYTES, TRANSLATION_BYTES, WORKSPACE_BYTES};
use reference::explain::{self, Fault};
use reference::packing::{sum_of, Packing};

/// The signs that are put before operands.
const SOURCE: u8 = 0x44;
const TARGET: u8 = 0x45;
const WITHOUT: u8 = 0x52;
const JOIN: u8 = 0x54;
const IDENTITY: u8 = 0x55;

/// An operand: a file, and what is asked of it.
pub struct Part {
    name: String,
    file: Vec<u8>,
    is: PartIs,
}

/// What an operand is.
#[derive(Clone, Copy, PartialEq, Eq)]
enum PartIs {
    Language,
    Translation,
    Pack,
    /// The source or the target of a translation or of a pack.
    LanguageOf {
        pack: bool,
        target: bool,
    },
}

/// How the terms of the operands become one.
#[derive(Clone, Copy, PartialEq, Eq)]
enum Made {
    Join,
    Sum,
    Without,
    Identity,
    Source,
    Target,
}

/// The operands of a verb, and what is made of them.
pub struct TermJob {
    parts: Vec<Part>,
    made: Made,
}

impl Part {
    /// Reads the translation or pack at a place among the operands.
    pub fn load(call: &Call, place: usize, streams: &mut Streams) -> Result<Part, Failure> {
        let name = file_name(&call.operands[place]);
        let file = operand(call, place, PACK_BYTES, streams)?;
        let is = match sort_of(&file) {
            Some(Sort::Pack) => PartIs::Pack,
            _ => PartIs::Translation,
        };
        Ok(Part { name, file, is })
    }

    /// Reads the language at a place among the operands, or the translation or pack that has it.
    fn load_language(call: &Call, place: usize, streams: &mut Streams) -> Result<Part, Failure> {
        let part = Part::load(call, place, streams)?;
        let target = call.options.target;
        let is = match sort_of(&part.file) {
            Some(Sort::Pack) => PartIs::LanguageOf { pack: true, target },
            Some(Sort::Translation) => PartIs::LanguageOf { pack: false, target },
            _ if target => {
                let name = &part.name;
                let what = format!("{name} is no translation and no pack, as --target needs");
                return Err(call.misuse(&what));
            }
            _ => PartIs::Language,
        };
        Ok(Part { is, ..part })
    }

    /// Whether the file is a pack.
    fn is_pack(&self) -> bool {
        matches!(self.is, PartIs::Pack | PartIs::LanguageOf { pack: true, .. })
    }

    /// The file as a translation or a pack.
    fn translator(&self) -> Translator {
        Translator::new(self.file.clone(), self.is_pack().then_some(Sort::Pack))
    }

    /// What the library says of the file by itself: the translation, or nothing for a language.
    fn checked(&self) -> Result<Vec<u8>, Refused> {
        let checked = match self.is {
            PartIs::Language => algebra::check_language(Language(&self.file)).map(|()| vec![]),
            _ => self.translator().checked().map(|translation| translation.into_owned()),
        };
        checked.map_err(|refusal| Refused::of_files(refusal, vec![self.name.clone()]))
    }

    /// Where the file by itself is at fault, if it is.
    fn fault(&self) -> Option<Fault> {
        match self.is {
            PartIs::Language => explain::language(&self.file),
            _ if self.is_pack() => explain::reduce(&self.file, WORKSPACE_BYTES, TRANSLATION_BYTES),
            _ => explain::translation(&self.file),
        }
    }

    /// The term of the file, or of the translation that it was reduced to.
    fn term(&self, reduced: Option<&[u8]>, packing: &mut Packing) -> Option<Vec<u8>> {
        if self.is == PartIs::Language {
            return Some(packing.language(&self.file));
        }
        let term = match reduced {
            None if self.is_pack() => packing.pack(&self.file),
            None => packing.translation(&self.file),
            Some(translation) => packing.translation(translation),
        }?;
        match self.is {
            PartIs::LanguageOf { target, .. } => {
                let sign = if target { TARGET } else { SOURCE };
                Some([vec![sign], term].concat())
            }
            _ => Some(term),
        }
    }
}

impl Made {
    /// The term of the operands' terms.
    fn term(self, terms: &[Vec<u8>]) -> Vec<u8> {
        let signs = match self {
            Made::Sum => return sum_of(terms),
            Made::Join => vec![JOIN],
            Made::Without => vec![WITHOUT],
            Made::Identity => vec![IDENTITY],
            Made::Source => vec![IDENTITY, SOURCE],
            Made::Target => vec![IDENTITY, TARGET],
        };
        [vec![signs], terms.to_vec()].concat().concat()
    }
}

/// The constants and the term of operands, each as its file is or as what it was reduced to.
fn packed(parts: &[Part], made: Made, reduced: &[Option<&[u8]>]) -> Option<(Packing, Vec<u8>)> {
    let mut packing = Packing::default();
    let parts = parts.iter().zip(reduced);
    let terms: Option<Vec<Vec<u8>>> =
        parts.map(|(part, reduced)| part.term(*reduced, &mut packing)).collect();
    Some((packing, made.term(&terms?)))
}

/// The pack of operands: of the files as they are or, where that is over a limit of packs or terms,
/// of what they were reduced to.
fn pack_of(parts: &[Part], made: Made, reduced: &[Vec<u8>]) -> Option<Vec<u8>> {
    let (packing, term) = packed(parts, made, &vec![None; parts.len()])?;
    if packing.fits(&term) {
        return Some(packing.pack_of(&term));
    }
    let reduced: Vec<Option<&[u8]>> = reduced.iter().map(|bytes| Some(&bytes[..])).collect();
    let (packing, term) = packed(parts, made, &reduced)?;
    Some(packing.pack_of(&term))
}

impl TermJob {
    /// Reads the operands of a join.
    pub fn load_join(call: &Call, streams: &mut Streams) -> Result<Box<dyn Job>, Failure> {
        TermJob::load(call, streams, Made::Join)
    }

    /// Reads the operands of a sum.
    pub fn load_sum(call: &Call, streams: &mut Streams) -> Result<Box<dyn Job>, Failure> {
        TermJob::load(call, streams, Made::Sum)
    }

    /// Reads a translation and the language that is taken from its source.
    pub fn load_without(call: &Call, streams: &mut Streams) -> Result<Box<dyn Job>, Failure> {
        let parts = vec![Part::load(call, 0, streams)?, Part::load_language(call, 1, streams)?];
        Ok(Box::new(TermJob { parts, made: Made::Without }))
    }

    /// Reads the language of an identity.
    pub fn load_identity(call: &Call, streams: &mut Streams) -> Result<Box<dyn Job>, Failure> {
        let parts = vec![Part::load_language(call, 0, streams)?];
        Ok(Box::new(TermJob { parts, made: Made::Identity }))
    }

    /// Reads the translation whose source is asked for.
    pub fn load_source(call: &Call, streams: &mut Streams) -> Result<Box<dyn Job>, Failure> {
        TermJob::load(call, streams, Made::Source)
    }

    /// Reads the translation whose target is asked for.
    pub fn load_target(call: &Call, streams: &mut Streams) -> Result<Box<dyn Job>, Failure> {
        TermJob::load(call, streams, Made::Target)
    }

    /// Reads operands that are all translations or packs.
    fn load(call: &Call, streams: &mut Streams, made: Made) -> Result<Box<dyn Job>, Failure> {
        let parts = (0..call.operands.len()).map(|place| Part::load(call, place, streams));
        Ok(Box::new(TermJob { parts: parts.collect::<Result<_, _>>()?, made }))
    }

    /// What each file is reduced to by itself, or the refusal of the first that is refused.
    fn reduced(&self) -> Result<Vec<Vec<u8>>, Refused> {
        self.parts.iter().map(Part::checked).collect()
    }

    /// The pack of the first so many operands.
    fn pack(&self, count: usize, reduced: &[Vec<u8>]) -> Vec<u8> {
        let pack = pack_of(&self.parts[..count], self.made, &reduced[..count]);
        pack.expect("files that are accepted can be read")
    }

    /// The files that a refusal speaks of: of a sum, those up to the first that does not fit.
    fn files(&self, reduced: &[Vec<u8>]) -> Vec<String> {
        let refused =
            |count: &usize| algebra::reduce_to_vec(Pack(&self.pack(*count, reduced))).is_err();
        let count = match self.made {
            Made::Sum => (1..self.parts.len()).find(refused),
            _ => None,
        };
        let parts = &self.parts[..count.unwrap_or(self.parts.len())];
        parts.iter().map(|part| part.name.clone()).collect()
    }

    /// What is given: the translation, or one of its languages.
    fn result(&self, translation: Vec<u8>) -> Vec<u8> {
        match self.made {
            Made::Source => source_of(&translation),
            Made::Target => target_of(&translation),
            _ => translation,
        }
    }
}

impl Job for TermJob {
    fn answer(&self) -> Result<Given, Refused> {
        let reduced = self.reduced()?;
        let pack = self.pack(self.parts.len(), &reduced);
        let named = |refusal: Refusal| Refused::of_files(refusal, self.files(&reduced));
        let translation = algebra::reduce_to_vec(Pack(&pack)).map_err(named)?;
        Ok(Given::Reduced { result: self.result(translation), pack })
    }

    fn fault(&self) -> Option<Fault> {
        if let Some(fault) = self.parts.iter().find_map(Part::fault) {
            return Some(fault);
        }
        let reduced = self.reduced().ok()?;
        let pack = self.pack(self.parts.len(), &reduced);
        explain::reduce(&pack, WORKSPACE_BYTES, TRANSLATION_BYTES)
    }
}

/// What a file reduces to by itself, and its name.
pub fn reduced_alone(part: Part) -> Result<(String, Vec<u8>), Refused> {
    let name = part.name.clone();
    let reduced = [part.checked()?];
    let pack = pack_of(&[part], Made::Sum, &reduced).expect("a file that is accepted can be read");
    let named = |refusal| Refused::of_files(refusal, vec![name.clone()]);
    let translation = algebra::reduce_to_vec(Pack(&pack)).map_err(named)?;
    Ok((name, translation))
}
