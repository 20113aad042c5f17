//! Calls whose inputs are changed from what the examples hold.

use crate::mutate::{change_term, mutate};
use crate::seeds::{index_of, Bytes, Runnable, Seeds};
use reference::block;
use reference::call::Call;
use reference::generate::{
    card_of, BlockCase, EditCase, ExportCase, ImportCase, IndexCase, JoinTableCase, MaskCase,
    Random, ReduceCase, RunCase, ScoreCase, SearchCase, TreeCase,
};
use reference::promises::ANSWERS;

/// A search for a longer tree is given memory for it: with less it may take long.
const SHORT_TREE: usize = 2048;
const WORKSPACE_FOR_A_BYTE: usize = 36;
/// So many paths are tried to find one that leads to a block.
const TRIES: usize = 5;
/// The limit of levels for a longer tree with less memory.
const LOW_LIMIT: u32 = 2;

/// One of a list.
fn one<'a, T>(random: &mut Random, list: &'a [T]) -> &'a T {
    &list[random.below(list.len())]
}

/// A root: mostly the one that fits.
fn root(random: &mut Random, fitting: u32) -> u32 {
    match random.below(20) {
        0 => random.below(34) as u32,
        1 => random.pick(&[31, 32, 255, 256, 257, 1 << 16, 1 << 31, u32::MAX]),
        _ => fitting,
    }
}

/// The length of an output: long enough in most cases, else any.
fn room(random: &mut Random, enough: usize) -> usize {
    match random.below(10) {
        0 => 0,
        1 => random.below(16),
        2 => random.below(enough + 1),
        _ => enough + random.below(64),
    }
}

/// A tree of a language, in which now and then any file stands for either.
fn tree(random: &mut Random, seeds: &Seeds) -> TreeCase {
    let mut case = one(random, &seeds.trees).clone();
    match random.below(30) {
        0 => case.language = one(random, &seeds.languages).clone(),
        1 => case.tree = one(random, &seeds.files).clone(),
        _ => {}
    }
    case
}

/// A tree and its language, changed.
fn changed_tree(random: &mut Random, seeds: &Seeds) -> TreeCase {
    let mut case = tree(random, seeds);
    mutate(random, &mut [&mut case.tree, &mut case.language], &seeds.files);
    case.root = root(random, case.root);
    case
}

/// A path in a tree with its index: mostly one that leads to a block, else any short one.
fn path(random: &mut Random, seeds: &Seeds, case: &TreeCase, index: &[u8]) -> Bytes {
    let TreeCase { language, root, tree } = case;
    let mut path = one(random, &seeds.paths).clone();
    for _ in 0..TRIES {
        if block(language, *root, tree, index, &path).outcome.number() == 0 {
            break;
        }
        path = (0..random.below(5)).map(|_| random.within(1..=3) as u8).collect();
    }
    path
}

/// A lookup: the index is the tree's own, mostly, of the tree as it is or as it was.
fn lookup(random: &mut Random, seeds: &Seeds) -> BlockCase {
    let mut case = tree(random, seeds);
    if random.percent(30) {
        mutate(random, &mut [&mut case.tree, &mut case.language], &seeds.files);
    }
    let mut index = index_of(&case);
    let mut path = path(random, seeds, &case, &index);
    let TreeCase { mut language, root: fitting, mut tree } = case;
    if random.percent(40) {
        mutate(random, &mut [&mut path, &mut index, &mut tree, &mut language], &seeds.files);
    }
    BlockCase { language, root: root(random, fitting), tree, index, path }
}

/// A card: that of the examples, or one of any kinds.
fn card(random: &mut Random, seeds: &Seeds) -> Bytes {
    match random.below(4) {
        0 => one(random, &seeds.cards).clone(),
        1 => card_of(random.bits() as u32),
        _ => card_of(u32::MAX),
    }
}

/// A block for the place of a lookup: another tree of its kind in the examples, the one that stands
/// there, or any tree.
fn block_for(random: &mut Random, seeds: &Seeds, case: &BlockCase) -> Bytes {
    let BlockCase { language, root, tree, index, path } = case;
    let found = block(language, *root, tree, index, path);
    let trees = seeds.trees.iter();
    let fitting = trees.filter(|tree| tree.language == *language && tree.root == found.kind);
    let fitting: Vec<&TreeCase> = fitting.collect();
    match random.below(6) {
        0 => one(random, &seeds.trees).tree.clone(),
        1 => found.part.to_vec(),
        _ if fitting.is_empty() => found.part.to_vec(),
        _ => random.pick(&fitting).tree.clone(),
    }
}

/// An edit at the place of a lookup.
fn edit(random: &mut Random, seeds: &Seeds) -> EditCase {
    let case = lookup(random, seeds);
    let (mut card, mut block) = (card(random, seeds), block_for(random, seeds, &case));
    let BlockCase { mut language, root, tree, index, path } = case;
    if random.percent(30) {
        mutate(random, &mut [&mut block, &mut card, &mut language], &seeds.files);
    }
    let bytes = tree.len() + block.len();
    let (plan, plan_index) = (room(random, bytes), room(random, 4 * bytes));
    EditCase { language, root, tree, index, path, card, block, plan, plan_index }
}

/// A run with its translation, changed.
fn changed_run(random: &mut Random, seeds: &Seeds, list: &[Runnable]) -> Runnable {
    let mut case = one(random, list).clone();
    if random.percent(4) {
        case.translation = one(random, &seeds.translations).clone();
    }
    mutate(random, &mut [&mut case.tree, &mut case.translation], &seeds.files);
    case.root = root(random, case.root);
    case
}

/// A search; where it might take long the limit is low.
fn search(random: &mut Random, seeds: &Seeds) -> SearchCase {
    let Runnable { translation, root, tree, .. } = changed_run(random, seeds, &seeds.found);
    let (whole, output) = (WORKSPACE_FOR_A_BYTE * tree.len(), room(random, 4 * tree.len() + 64));
    let workspace = random.pick(&[0, 1, 100, whole / 2, whole, whole, whole + 9]);
    let limit = match random.below(12) {
        0 => random.pick(&[0, 17, 255, 256, u32::MAX]),
        _ if tree.len() > SHORT_TREE && workspace < whole => LOW_LIMIT,
        _ => random.within(1..=16) as u32,
    };
    SearchCase { translation, root, tree, limit, workspace, output }
}

/// A reduction with the least room, mostly.
fn reduce(random: &mut Random, seeds: &Seeds) -> ReduceCase {
    let mut pack = one(random, &seeds.packs).clone();
    match random.percent(40) {
        true => change_term(random, &mut pack),
        false => mutate(random, &mut [&mut pack], &seeds.files),
    }
    let workspace = random
        .pick(&[65_536, 65_536, 65_536, 65_536, 65_536, 65_536, 65_536, 65_537, 70_000, 65_535, 0]);
    let output = random.pick(&[4096, 4096, 4096, 4096, 4096, 4096, 4096, 4097, 6000, 4095, 0]);
    ReduceCase { pack, workspace, output }
}

/// A tree or a loose plan with a table, changed.
fn scored(random: &mut Random, seeds: &Seeds, list: &[(TreeCase, Bytes)]) -> ScoreCase {
    let (TreeCase { mut language, root: fitting, mut tree }, mut table) = one(random, list).clone();
    mutate(random, &mut [&mut tree, &mut table, &mut language], &seeds.files);
    ScoreCase { language, root: root(random, fitting), tree, table }
}

/// A join of a table.
fn joined(random: &mut Random, seeds: &Seeds) -> JoinTableCase {
    let (mut translation, mut table) = one(random, &seeds.joined).clone();
    mutate(random, &mut [&mut table, &mut translation], &seeds.files);
    JoinTableCase { translation, table, output: room(random, 2048) }
}

/// An import of a text.
fn import(random: &mut Random, seeds: &Seeds) -> ImportCase {
    let TreeCase { mut language, root: fitting, tree: mut text } =
        one(random, &seeds.texts).clone();
    mutate(random, &mut [&mut text, &mut language], &seeds.files);
    let output = room(random, text.len());
    ImportCase { language, root: root(random, fitting), text, output }
}

/// A mask by a card.
fn mask(random: &mut Random, seeds: &Seeds) -> MaskCase {
    let TreeCase { language, root, tree } = changed_tree(random, seeds);
    let mut card = card(random, seeds);
    if random.percent(15) {
        mutate(random, &mut [&mut card], &seeds.files);
    }
    let output = room(random, tree.len());
    MaskCase { language, root, card, tree, output }
}

/// A call of the operation with this place in the list of all.
pub fn call(random: &mut Random, seeds: &Seeds, place: usize) -> Call {
    match ANSWERS[place].0 {
        "check_language" => {
            let mut language = one(random, &seeds.languages).clone();
            mutate(random, &mut [&mut language], &seeds.files);
            Call::CheckLanguage(language)
        }
        "check_translation" => {
            let mut translation = one(random, &seeds.translations).clone();
            mutate(random, &mut [&mut translation], &seeds.files);
            Call::CheckTranslation(translation)
        }
        "check_tree" => Call::CheckTree(changed_tree(random, seeds)),
        "locate" => Call::Locate(changed_tree(random, seeds)),
        "reduce" => Call::Reduce(reduce(random, seeds)),
        "run" => {
            let case = changed_run(random, seeds, &seeds.runs);
            let Runnable { translation, root, tree, .. } = case;
            let number = random.pick(&[case.number, case.number, case.number, 0, 1, 2, 255, 256]);
            let output = room(random, 8 * tree.len() + 256);
            Call::Run(RunCase { translation, root, number, tree, output })
        }
        "score" => Call::Score(scored(random, seeds, &seeds.scored)),
        "score_loose" => Call::ScoreLoose(scored(random, seeds, &seeds.loose)),
        "join_table" => Call::JoinTable(joined(random, seeds)),
        "export" => {
            let TreeCase { language, root, tree } = changed_tree(random, seeds);
            let output = room(random, 16 * tree.len() + 64);
            Call::Export(ExportCase { language, root, tree, output })
        }
        "import" => Call::Import(import(random, seeds)),
        "index" => {
            let TreeCase { language, root, tree } = changed_tree(random, seeds);
            let output = room(random, 4 * tree.len());
            Call::Index(IndexCase { language, root, tree, output })
        }
        "block" => Call::Block(lookup(random, seeds)),
        "node" => Call::Node(lookup(random, seeds)),
        "edit" => Call::Edit(edit(random, seeds)),
        "mask" => Call::Mask(mask(random, seeds)),
        _ => Call::Search(search(random, seeds)),
    }
}

/// The same call with outputs of other lengths, if it has an output that may have any.
pub fn with_room(call: &Call, output: usize, index: usize) -> Option<Call> {
    let mut call = call.clone();
    match &mut call {
        Call::Run(case) => case.output = output,
        Call::JoinTable(case) => case.output = output,
        Call::Export(case) => case.output = output,
        Call::Import(case) => case.output = output,
        Call::Index(case) => case.output = output,
        Call::Mask(case) => case.output = output,
        Call::Search(case) => case.output = output,
        Call::Edit(case) => (case.plan, case.plan_index) = (output, index),
        _ => return None,
    }
    Some(call)
}
