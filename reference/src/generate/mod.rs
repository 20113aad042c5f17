//! Seeded generators of files: valid ones, ones at a limit or one past it, and damaged ones.

mod blocks;
mod botched;
mod cards;
mod codes;
mod damage;
mod edits;
mod exact;
mod heights;
mod indexes;
mod languages;
mod lengths;
mod long;
mod long_trees;
mod loose;
mod numbers;
mod packs;
mod random;
mod ranges;
mod searches;
mod sheets;
mod tables;
mod terms;
mod texts;
mod translations;
mod trees;
mod written;

pub use blocks::{block_case, BlockCase};
pub use botched::botched_case;
pub use cards::{card_of, mask_case, mask_pair, MaskCase};
pub use damage::damage;
pub use edits::{edit_case, EditCase};
pub use indexes::{index_bytes, index_case, IndexCase};
pub use languages::language_file;
pub use long::{long_run_case, LongRunCase, LONG_TREE};
pub use long_trees::long_tree_case;
pub use loose::{doubled, loose_case, settled, Settling};
pub use numbers::{has_numbers, with_turns, with_twin};
pub use packs::{
    law_body, law_language, law_pack, pack_with_term, reduce_case, LawPack, ReduceCase,
};
pub use random::Random;
pub use searches::{search_case, small_search_case, SearchCase};
pub use sheets::{sheet_case, SheetCase};
pub use tables::{
    join_table_case, score_case, scored_run_case, unit_table, unit_target_table, JoinTableCase,
    ScoreCase, ScoredRunCase,
};
pub use texts::{export_case, import_case, lenient_text, ExportCase, ImportCase};
pub use translations::{run_case, translation_file, RunCase};
pub(crate) use trees::legal_tree;
pub use trees::{source_tree, tree_case, TreeCase};
