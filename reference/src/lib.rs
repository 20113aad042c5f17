//! Languages, translations and a reducer over bytes: a reference on decoded structures.
//!
//! The operations are `check_language`, `check_translation`, `check_tree`, `reduce`, `run`,
//! `score`, `score_loose`, `join_table`, `export`, `import`, `index`, `block`, `node`, `locate`,
//! `edit`, `mask` and `search`. Each answers with an `Outcome`: accepted with a length, or refused.
#![deny(unsafe_code)]

mod block;
mod body;
mod card;
mod code;
#[cfg(test)]
mod earlier;
mod edit;
mod field;
mod grammar;
mod index;
mod language;
mod locate;
mod loose;
mod node;
mod operators;
mod outcome;
mod pack;
mod reduce;
mod run;
mod score;
mod search;
mod term;
mod translation;
mod tree;
mod xml;

pub mod call;
pub mod enumeration;
pub mod examples;
pub mod explain;
pub mod files;
pub mod generate;
#[cfg(feature = "library")]
pub mod interface;
pub mod laws;
pub mod listing;
pub mod names;
pub mod notation;
pub mod packing;
pub mod plans;
pub mod promises;
pub mod show;
pub mod stack;
pub mod steps;
pub mod xslt;

pub use block::{block, Block};
pub use card::mask;
pub use edit::{edit, Edit, EditInput};
pub use index::index;
pub use language::check_language;
pub use locate::{locate, Located};
pub use loose::{score_loose, Ends, LooseScore};
pub use node::{node, Node};
pub use outcome::{Outcome, Refusal};
pub use reduce::reduce;
pub use run::{run, Run};
pub use score::{join_table, score, Score};
pub use search::search;
pub use translation::check_translation;
pub use tree::check_tree;
pub use xml::{export, import};
