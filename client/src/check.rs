//! Checks of languages, translations and trees, and where a tree is at fault.

use crate::output::accepted;
use crate::{raw, Kind, Language, Refusal, Translation, Tree};
use std::error::Error;
use std::fmt;

/// Checks a language: token classes by rising kind, then productions by rising result and name.
///
/// # Errors
///
/// Refusals: 1 to 4.
///
/// ```
/// use algebra::{check_language, Language, Refusal};
///
/// let strap = include_bytes!("../../examples/strap/strap.language");
/// assert_eq!(check_language(Language(strap)), Ok(()));
/// // Its last field ends too early.
/// let cut = &strap[..strap.len() - 1];
/// assert_eq!(check_language(Language(cut)), Err(Refusal::BrokenField));
/// ```
pub fn check_language(language: Language) -> Result<(), Refusal> {
    accepted(raw::check_language(language.0))
}

/// Checks a translation: source, target, mappings and clauses.
///
/// # Errors
///
/// Refusals: 1 to 7.
///
/// ```
/// use algebra::{check_translation, Refusal, Translation};
///
/// // Twice a block is a sequence of two.
/// let twice = include_bytes!("../../examples/strap/plan.translation");
/// assert_eq!(check_translation(Translation(twice)), Ok(()));
/// // A language is no translation.
/// let strap = include_bytes!("../../examples/strap/strap.language");
/// assert_eq!(check_translation(Translation(strap)), Err(Refusal::BrokenField));
/// ```
pub fn check_translation(translation: Translation) -> Result<(), Refusal> {
    accepted(raw::check_translation(translation.0))
}

/// Why a tree is refused, and where reading stopped in it.
///
/// With `?` it becomes the [`Refusal`] alone where that is asked for.
#[derive(Clone, Copy, Debug, PartialEq, Eq, Hash)]
pub struct TreeFault {
    refusal: Refusal,
    position: Option<usize>,
}

impl TreeFault {
    /// Why the tree is refused.
    pub const fn refusal(self) -> Refusal {
        self.refusal
    }

    /// The byte of the tree at which reading stopped, counted from 0, if the tree is refused with 15
    /// or 16: where the node starts that cannot be (its name, or its token), the end of the tree if
    /// it ends too early, the first byte left over; or where level 65 is reached. `None` if what is
    /// refused is the language or the root.
    pub const fn position(self) -> Option<usize> {
        self.position
    }

    /// The fault of a refusal, with the position if it is the tree that is at fault.
    fn new(refusal: Refusal, position: impl FnOnce() -> u64) -> TreeFault {
        let in_tree = matches!(refusal, Refusal::IllegalTree | Refusal::TooDeep);
        TreeFault { refusal, position: in_tree.then(|| position() as usize) }
    }
}

impl fmt::Display for TreeFault {
    /// Writes the sentence of the refusal, and the byte.
    fn fmt(&self, formatter: &mut fmt::Formatter) -> fmt::Result {
        match self.position {
            Some(position) => write!(formatter, "{}, at byte {position}", self.refusal),
            None => write!(formatter, "{}", self.refusal),
        }
    }
}

impl Error for TreeFault {}

impl From<TreeFault> for Refusal {
    fn from(fault: TreeFault) -> Refusal {
        fault.refusal
    }
}

/// Checks that the bytes are a legal tree of the root kind in a language.
///
/// # Errors
///
/// Refusals: 1 to 4, 14 to 16; for 15 and 16 with the position.
///
/// ```
/// use algebra::write::{production, token};
/// use algebra::{check_tree, Kind, Language, Refusal, Tree};
///
/// const BLOCK: Kind = Kind(1);
/// const ROW: u8 = 1;
/// let strap = Language(include_bytes!("../../examples/strap/strap.language"));
///
/// let row = production(ROW, [token(240)]);
/// assert_eq!(check_tree(strap, BLOCK, Tree(&row)), Ok(()));
///
/// // Minutes are 1 to 240.
/// let too_long = production(ROW, [token(241)]);
/// let fault = check_tree(strap, BLOCK, Tree(&too_long)).unwrap_err();
/// assert_eq!(fault.refusal(), Refusal::IllegalTree);
/// assert_eq!(fault.position(), Some(1));
/// assert_eq!(fault.to_string(), "the tree is not legal, at byte 1");
///
/// // No kind 9 is in the language: the tree is not looked at.
/// let fault = check_tree(strap, Kind(9), Tree(&row)).unwrap_err();
/// assert_eq!((fault.refusal(), fault.position()), (Refusal::UnknownRoot, None));
/// ```
pub fn check_tree(language: Language, root: Kind, tree: Tree) -> Result<(), TreeFault> {
    let position = || raw::locate(language.0, root.0, tree.0).position;
    accepted(raw::check_tree(language.0, root.0, tree.0))
        .map_err(|refusal| TreeFault::new(refusal, position))
}

/// The fault of a tree of the root kind, if it has one: what an editor marks while its user types.
///
/// It is what [`check_tree`] gives as an error. The operations that read a tree give the refusal
/// alone; this tells where.
///
/// ```
/// use algebra::write::{production, token};
/// use algebra::{locate, Kind, Language, Tree};
///
/// const BLOCK: Kind = Kind(1);
/// const ROW: u8 = 1;
/// const SEQUENCE: u8 = 2;
/// let strap = Language(include_bytes!("../../examples/strap/strap.language"));
/// let position = |tree: &[u8]| locate(strap, BLOCK, Tree(tree))?.position();
///
/// let row = production(ROW, [token(5)]);
/// let whole = production(SEQUENCE, [row.clone(), row.clone()]);
/// assert_eq!(position(&whole), None);
/// // A sequence whose second block is still to be typed ends too early: at its end.
/// assert_eq!(position(&whole[..4]), Some(4));
/// // Behind a whole tree nothing may follow.
/// assert_eq!(position(&[whole, row].concat()), Some(7));
/// ```
pub fn locate(language: Language, root: Kind, tree: Tree) -> Option<TreeFault> {
    let answer = raw::locate(language.0, root.0, tree.0);
    let refusal = accepted(answer.number).err()?;
    Some(TreeFault::new(refusal, || answer.position))
}
