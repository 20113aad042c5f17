//! Cases of operations on one tree: scores of fixed and loose plans, exports, imports of texts,
//! indexes, lookups of blocks and of what stands at a path, edits, masks and searches; and joins of
//! load tables.

use crate::shapes::{shapes, Detour, Shape, Size, ROOT, TOKEN_KIND, TREE_LEVELS};
use crate::{random_cases, translation_cases, tree_cases, Case, LONG_CASES, RANDOM_CASES};
use reference::call::Call;
use reference::check_translation;
use reference::files::{clause, mapping, production, translation};
use reference::generate::{
    block_case, card_of, doubled, edit_case, export_case, import_case, index_bytes, index_case,
    join_table_case, lenient_text, long_tree_case, loose_case, mask_case, score_case, search_case,
    unit_table, unit_target_table, BlockCase, EditCase, ExportCase, ImportCase, IndexCase,
    JoinTableCase, MaskCase, Random, ScoreCase, SearchCase, TreeCase,
};

/// No joined table is longer.
const LONGEST_TABLE: usize = 5000;
/// The text of a tree is shorter than so many times the tree.
const LONGEST: usize = 20;
/// No run that is searched for is longer.
const LONGEST_RUN: usize = 1 << 16;
/// The most levels of what a search finds.
const SEARCH_LEVELS: usize = 16;
/// Names in the searches for links: a leaf, a link, a leaf that has no source, and a link that is
/// its argument alone.
const LEAF: u8 = 0;
const LINK: u8 = 1;
const NO_SOURCE: u8 = 2;
const ALONE: u8 = 3;

/// The score of a tree by a table in which every figure is 1.
fn scored(case: TreeCase) -> Call {
    let TreeCase { language, root, tree } = case;
    let table = unit_table(&language);
    Call::Score(ScoreCase { language, root, tree, table })
}

/// The score of a tree as a loose plan, by the same table.
fn scored_loose(case: TreeCase) -> Call {
    let TreeCase { language, root, tree } = case;
    let table = unit_table(&language);
    let case = ScoreCase { language, root, tree, table };
    Call::ScoreLoose(ScoreCase { tree: doubled(&case), ..case })
}

/// A join of a table in which every figure is 1, or of none if the translation is refused.
fn joined(translation: Vec<u8>) -> Call {
    let accepted = check_translation(&translation).number() == 0;
    let table = if accepted { unit_target_table(&translation) } else { vec![] };
    Call::JoinTable(JoinTableCase { translation, table, output: LONGEST_TABLE })
}

/// Joins of tables onto translations with codes of 16 levels, and random ones.
fn join_cases(seed: u64) -> Vec<Case> {
    let random = |random: &mut Random| Call::JoinTable(join_table_case(random));
    let random = random_cases(seed, RANDOM_CASES, "random", random);
    translation_cases(joined).into_iter().chain(random).collect()
}

/// The export of a tree, with an output that is long enough.
fn exported(case: TreeCase) -> Call {
    let TreeCase { language, root, tree } = case;
    let output = LONGEST * tree.len();
    Call::Export(ExportCase { language, root, tree, output })
}

/// The import of the text of a tree, which may have too many levels; a broken tree has none.
fn imported(case: TreeCase) -> Call {
    let text = lenient_text(&case).unwrap_or_default();
    let TreeCase { language, root, tree } = case;
    Call::Import(ImportCase { language, root, text, output: tree.len() })
}

/// A path down to the last level, if the deep argument is the same at each.
fn deep_path(shape: &Shape) -> Vec<u8> {
    vec![shape.used; TREE_LEVELS - 1]
}

/// The index of a tree, with an output that is long enough.
fn indexed(case: TreeCase) -> Call {
    let TreeCase { language, root, tree } = case;
    let output = 4 * tree.len();
    Call::Index(IndexCase { language, root, tree, output })
}

/// The input of a lookup in a tree at a path, with the tree's own index.
fn looked_up(case: TreeCase, path: Vec<u8>) -> BlockCase {
    let index = index_bytes(&case);
    let TreeCase { language, root, tree } = case;
    BlockCase { language, root, tree, index, path }
}

/// A lookup of the block of a tree at a path.
fn block_at(case: TreeCase, path: Vec<u8>) -> Call {
    Call::Block(looked_up(case, path))
}

/// What stands in a tree at a path.
fn node_at(case: TreeCase, path: Vec<u8>) -> Call {
    Call::Node(looked_up(case, path))
}

/// An edit that puts the whole tree in the place of its root or, one level too deep for most,
/// in the place of the block at a path.
fn edited(case: TreeCase, path: Vec<u8>) -> Call {
    let index = index_bytes(&case);
    let TreeCase { language, root, tree } = case;
    let (block, plan, card) = (tree.clone(), 2 * tree.len(), card_of(u32::MAX));
    let plan_index = 4 * plan;
    Call::Edit(EditCase { language, root, tree, index, path, card, block, plan, plan_index })
}

/// A tree masked by a card that shows all, or all but the tokens.
fn masked(case: TreeCase, kinds: u32) -> Call {
    let TreeCase { language, root, tree } = case;
    let (card, output) = (card_of(kinds), tree.len());
    Call::Mask(MaskCase { language, root, card, tree, output })
}

/// Masks that hide the tokens, that hide nothing, random ones, and ones of long trees.
fn mask_cases(seed: u64) -> Vec<Case> {
    let tokens = tree_cases(|_, case| masked(case, !(1 << TOKEN_KIND)));
    let all = cases_of(
        seed,
        |_, case| masked(case, u32::MAX),
        |random| Call::Mask(mask_case(random)),
        |random| masked(long_tree_case(random), u32::MAX),
    );
    tokens.into_iter().chain(all).collect()
}

/// Cases of one operation: on built trees, random ones, and ones on long trees.
fn cases_of(
    seed: u64,
    built: impl Fn(&Shape, TreeCase) -> Call,
    random: fn(&mut Random) -> Call,
    long: fn(&mut Random) -> Call,
) -> Vec<Case> {
    let random = random_cases(seed, RANDOM_CASES, "random", random);
    let long = random_cases(seed, LONG_CASES, "long tree", long);
    tree_cases(built).into_iter().chain(random).chain(long).collect()
}

/// Edits at the root and at the last level, random ones, and ones of long trees.
fn edit_cases(seed: u64) -> Vec<Case> {
    let deep = tree_cases(|shape, case| edited(case, deep_path(shape)));
    let whole = cases_of(
        seed,
        |_, case| edited(case, vec![]),
        |random| Call::Edit(edit_case(random)),
        |random| edited(long_tree_case(random), vec![]),
    );
    deep.into_iter().chain(whole).collect()
}

/// A search in a translation with codes of 16 levels for the run of a tree, with some workspace.
fn searched(shape: &Shape, case: TreeCase) -> Call {
    let (translation, mut tree) = (shape.translation(), vec![0; LONGEST_RUN]);
    let outcome = reference::run(&translation, case.root, 0, &case.tree, &mut tree);
    tree.truncate(outcome.length() as usize);
    let (workspace, output) = (32 * tree.len(), case.tree.len());
    Call::Search(SearchCase { translation, root: case.root, tree, limit: 16, workspace, output })
}

/// A translation whose links are put so many deep around their argument, and which has a link that
/// is its argument alone; the second leaf of the target has no source.
fn deep_links(depth: usize) -> Vec<u8> {
    let leaves = [LEAF, NO_SOURCE].map(|name| production(1, name, &[]));
    let links = [LINK, ALONE].map(|name| production(1, name, &[1]));
    let code = [[1, LINK].repeat(depth), vec![3, 1]].concat();
    let clauses =
        [clause(1, LEAF, &[1, LEAF]), clause(1, LINK, &code), clause(1, ALONE, &[3, 1])].concat();
    let source = [leaves[0].clone(), links.concat()].concat();
    let target = [leaves[0].clone(), links[0].clone(), leaves[1].clone()].concat();
    translation(&source, &target, &[mapping(1, 1), clauses].concat())
}

/// A search for links as deep as a tree of 16 levels can run to, with or without workspace.
fn deep_search(depth: usize, last: u8, workspace: usize) -> Case {
    let tree = [vec![LINK; depth * (SEARCH_LEVELS - 1)], vec![last]].concat();
    let name = format!("links put {depth} deep, to leaf {last}, {workspace} bytes of workspace");
    let (translation, output) = (deep_links(depth), tree.len());
    let limit = SEARCH_LEVELS as u32;
    let case = SearchCase { translation, root: 1, tree, limit, workspace, output };
    Case { name, call: Call::Search(case) }
}

/// Searches for the runs of chains of 1 to 16 levels, for links of 16 to 61 levels, and random
/// ones.
fn search_cases(seed: u64) -> Vec<Case> {
    let sizes = [Size::Lean, Size::Small].into_iter().flat_map(shapes);
    let built = sizes.flat_map(|shape| {
        [1, 2, 4, SEARCH_LEVELS].map(|levels| {
            let (language, root, tree) = (vec![], ROOT, shape.tree(levels, Detour::None));
            let call = searched(&shape, TreeCase { language, root, tree });
            Case { name: format!("{levels} levels, {shape:?}"), call }
        })
    });
    let deep = (1..=4).flat_map(|depth| {
        [(LEAF, 0), (LEAF, 4096), (NO_SOURCE, 0), (NO_SOURCE, 4096)]
            .map(|(last, workspace)| deep_search(depth, last, workspace))
    });
    let random = |random: &mut Random| Call::Search(search_case(random));
    let random = random_cases(seed, RANDOM_CASES, "random", random);
    built.chain(deep).chain(random).collect()
}

/// Cases of scores of fixed and loose plans, and of joined tables.
fn score_cases(seed: u64) -> Vec<Vec<Case>> {
    let score = cases_of(
        seed,
        |_, case| scored(case),
        |random| Call::Score(score_case(random)),
        |random| scored(long_tree_case(random)),
    );
    let loose = cases_of(
        seed,
        |_, case| scored_loose(case),
        |random| Call::ScoreLoose(loose_case(random)),
        |random| scored_loose(long_tree_case(random)),
    );
    vec![score, loose, join_cases(seed)]
}

/// Cases of exports and imports.
fn text_cases(seed: u64) -> Vec<Vec<Case>> {
    let export = cases_of(
        seed,
        |_, case| exported(case),
        |random| Call::Export(export_case(random)),
        |random| exported(long_tree_case(random)),
    );
    let import = cases_of(
        seed,
        |_, case| imported(case),
        |random| Call::Import(import_case(random)),
        |random| imported(long_tree_case(random)),
    );
    vec![export, import]
}

/// Cases of indexes and lookups.
fn block_cases(seed: u64) -> Vec<Vec<Case>> {
    let index = cases_of(
        seed,
        |_, case| indexed(case),
        |random| Call::Index(index_case(random)),
        |random| indexed(long_tree_case(random)),
    );
    let block = cases_of(
        seed,
        |shape, case| block_at(case, deep_path(shape)),
        |random| Call::Block(block_case(random)),
        |random| block_at(long_tree_case(random), vec![]),
    );
    let node = cases_of(
        seed,
        |shape, case| node_at(case, deep_path(shape)),
        |random| Call::Node(block_case(random)),
        |random| node_at(long_tree_case(random), vec![]),
    );
    vec![index, block, node]
}

/// All cases of each operation.
pub fn cases(seed: u64) -> Vec<Vec<Case>> {
    let last = vec![edit_cases(seed), mask_cases(seed), search_cases(seed)];
    [score_cases(seed), text_cases(seed), block_cases(seed), last].into_iter().flatten().collect()
}
