//! Session languages and their translations: safe functions over the library `algebra`.
//!
//! Crews train with straps that take sessions in a small language of rows and rests, and clubs
//! write their sessions in larger languages of their own. What every operation answers, on every
//! input, is proved of the library; this crate calls it.
//!
//! # A session
//!
//! ```
//! use algebra::write::{production, token};
//! use algebra::{check_tree, reduce_to_vec, run_to_vec};
//! use algebra::{Kind, Language, MappingNumber, Pack, Translation, Tree};
//!
//! // The kinds and words of the strap, and a word of a club.
//! const BLOCK: Kind = Kind(1);
//! const ROW: u8 = 1;
//! const SEQUENCE: u8 = 2;
//! const TWICE: u8 = 4;
//!
//! // The strap's language, and a pack in which twice a block is a sequence of two.
//! let strap = Language(include_bytes!("../../examples/strap/strap.language"));
//! let club = Pack(include_bytes!("../../examples/strap/plan.pack"));
//! let translation = reduce_to_vec(club)?;
//!
//! // Twice a row of 5 minutes becomes a session of the strap.
//! let row = production(ROW, [token(5)]);
//! let plan = production(TWICE, [row.clone()]);
//! let ran = run_to_vec(Translation(&translation), BLOCK, MappingNumber(0), Tree(&plan), 1000)?;
//! assert_eq!(ran.tree, production(SEQUENCE, [row.clone(), row]));
//! check_tree(strap, BLOCK, Tree(&ran.tree))?;
//! # Ok::<(), algebra::Refusal>(())
//! ```
//!
//! # The operations
//!
//! | operation | answers |
//! |---|---|
//! | [`check_language`], [`check_translation`], [`check_tree`] | nothing, or why not; of a tree also where |
//! | [`locate`] | where a tree is at fault |
//! | [`reduce`], [`reduce_to_vec`] | the translation that a pack's term stands for |
//! | [`run`], [`run_to_vec`] | what a translation makes of a tree, and the cost |
//! | [`search`], [`search_to_vec`] | a tree that a translation makes into a given one |
//! | [`index()`], [`index_to_vec`] | start and length of each node of a tree |
//! | [`block()`], [`node`] | one block of a tree with its index, and what stands there |
//! | [`Plan`], [`Plan::nodes`] | a tree with its index, checked together, and all of its nodes |
//! | [`edit()`], [`edit_to_vec`] | a plan in which one block was replaced, and its index |
//! | [`mask()`], [`mask_to_vec`], [`card`] | what a viewer sees of a plan; the viewer's card |
//! | [`score()`], [`score_loose`] | the load of a plan by a table, or the least and the greatest |
//! | [`join_table`], [`join_table_to_vec`] | a load table for the source of a translation |
//! | [`export()`], [`export_to_vec`], [`import()`], [`import_to_vec`] | a tree as XML, and back |
//!
//! Arguments stand in the order of the C interface, and each has a type of its own, so that no two
//! can change places: `Tree(&bytes)` says that the bytes are taken for a tree, not that they are
//! one. A function that puts its result into an output that is lent has a sister, `..._to_vec`,
//! that allocates it. [`mod@write`] puts languages and trees together in words.
//!
//! What a call answers depends on its arguments alone; any number of threads may call at the same
//! time.
//!
//! # An editor
//!
//! ```
//! use algebra::write::token;
//! use algebra::{index_to_vec, locate};
//! use algebra::{BlockPath, Card, Index, Kind, Language, NewBlock, Plan, Tree};
//!
//! const BLOCK: Kind = Kind(1);
//! const LADDER: u8 = 6;
//!
//! // A session with a warm-up, a pyramid and a ladder, as the club's editor has it open.
//! let club = Language(include_bytes!("../../examples/pyramid/club.language"));
//! let session = include_bytes!("../../examples/pyramid/session.tree");
//! let index = index_to_vec(club, BLOCK, Tree(session))?;
//! let plan = Plan::new(club, BLOCK, Tree(session), Index(&index))?;
//!
//! // The path of the ladder's first piece, of 4 minutes, which is to be 5.
//! let ladder = plan.nodes().find(|node| node.node().name() == Some(LADDER));
//! let path = [ladder.expect("there is one").path().0, &[1]].concat();
//! assert_eq!(path, [2, 2, 2, 1]);
//!
//! let edited = plan.edit(BlockPath(&path), Card::ALL, NewBlock(&token(5)))?;
//! assert_eq!(locate(club, BLOCK, Tree(&edited.plan)), None);
//! assert_eq!(edited.index, index_to_vec(club, BLOCK, Tree(&edited.plan))?);
//! # Ok::<(), algebra::Refusal>(())
//! ```
//!
//! # Errors
//!
//! An operation is accepted, or gives a [`Refusal`]: its number is that of the C interface, and its
//! text a sentence. The pages of the functions name the numbers that each can give. [`check_tree`]
//! and [`locate`] give a [`TreeFault`], which has the position besides. No content of an input makes
//! a call panic; a library that gives a number which this crate does not know, and so is not of
//! its version, does.
//!
//! # Features
//!
//! There are none, and no dependencies. The crate uses the standard library, on Linux on x86-64.
//!
//! # Stack
//!
//! A call uses up to [`STACK_BYTES`] bytes of stack, 320 KB. The main thread of a usual system
//! and the threads of the standard library start with more; a thread with a small stack, or a
//! caller that is deep in calls already, must see to it that so much is left.
//!
//! # Linking
//!
//! The library is looked for at build time, and the first of these that there is is taken:
//!
//! 1. the folder that the variable `ALGEBRA_LIB_DIR` names (from the root, or seen from this
//!    package), which must have `libalgebra.a`;
//! 2. `../target/staticlib/libalgebra.a`, where the repository builds it;
//! 3. an installed library of version 1.0 or later, by `pkg-config`.
#![deny(missing_docs, unsafe_code, unsafe_op_in_unsafe_fn)]
#![warn(missing_debug_implementations, unreachable_pub)]

mod block;
mod check;
mod edit;
mod grammar;
mod input;
mod limits;
mod loose;
mod mask;
mod output;
mod plan;
pub mod raw;
mod reduce;
mod refusal;
mod run;
mod score;
mod search;
pub mod write;
mod xml;

pub use block::{block, node, Block, Node};
pub use check::{check_language, check_translation, check_tree, locate, TreeFault};
pub use edit::{edit, edit_to_vec, index, index_to_vec, Edit, Edited};
pub use input::{
    BlockPath, Card, Index, Kind, Language, Levels, LoadTable, LoosePlan, MappingNumber, NewBlock,
    Pack, Translation, Tree, Xml,
};
pub use limits::{
    ARGUMENTS, CODE_LEVELS, ENTRY_BYTES, HIDDEN_BYTE, INDEXED_BYTES, JOINED_NUMBERS, KINDS,
    LANGUAGE_BYTES, MAPPING_NUMBERS, PACK_BYTES, SEARCH_LEVELS, SEARCH_WORKSPACE, STACK_BYTES,
    TABLE_BYTES, TERM_LEVELS, TRANSLATION_BYTES, TREE_LEVELS, WORKSPACE_BYTES,
};
pub use loose::{score_loose, LooseScore};
pub use mask::{card, mask, mask_to_vec};
pub use output::in_output;
pub use plan::{Nodes, Plan, PlanNode};
pub use reduce::{reduce, reduce_to_vec};
pub use refusal::{Refusal, UnknownNumber};
pub use run::{run, run_to_vec, Ran, Run};
pub use score::{join_table, join_table_to_vec, score};
pub use search::{search, search_to_vec};
pub use xml::{export, export_to_vec, import, import_to_vec};

/// The page of this package, whose example is compiled with the others.
#[cfg(doctest)]
#[doc = include_str!("../README.md")]
struct Page;
