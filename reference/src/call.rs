//! A call of one of the operations, by the reference or by the library.

use crate::generate::{BlockCase, EditCase, ExportCase, ImportCase, IndexCase, JoinTableCase};
use crate::generate::{MaskCase, Random, ReduceCase, RunCase, ScoreCase, SearchCase, TreeCase};
#[cfg(feature = "library")]
use crate::interface;
use crate::outcome::Outcome;
use crate::{block, check_language, check_translation, check_tree, edit, export, import, index};
use crate::{join_table, locate, mask, node, reduce, run, score, score_loose, search};
use crate::{Block, Edit, Located, LooseScore, Node, Run, Score};
#[cfg(feature = "library")]
use algebra::raw as library;

/// An operation with its inputs.
#[derive(Clone, Debug)]
pub enum Call {
    CheckLanguage(Vec<u8>),
    CheckTranslation(Vec<u8>),
    CheckTree(TreeCase),
    Reduce(ReduceCase),
    Run(RunCase),
    Score(ScoreCase),
    /// The score of a loose plan, which is the tree of the case.
    ScoreLoose(ScoreCase),
    JoinTable(JoinTableCase),
    Export(ExportCase),
    Import(ImportCase),
    Index(IndexCase),
    Block(BlockCase),
    /// What stands at the path of a lookup.
    Node(BlockCase),
    /// Where a tree is at fault.
    Locate(TreeCase),
    Edit(EditCase),
    Mask(MaskCase),
    Search(SearchCase),
}

/// The buffers that are lent to a call; a check has none, nor has a lookup. The index is the second
/// output of an edit.
#[derive(Clone, Debug, Default, PartialEq, Eq)]
pub struct Buffers {
    pub workspace: Vec<u8>,
    pub output: Vec<u8>,
    pub index: Vec<u8>,
}

impl Buffers {
    /// Buffers of the same lengths whose contents begin with any byte and rise, so that what was
    /// written shows.
    pub fn marked(&self, random: &mut Random) -> Buffers {
        let mut marked = |buffer: &[u8]| -> Vec<u8> {
            let start = random.byte();
            (0..buffer.len()).map(|place| start.wrapping_add((place % 251) as u8)).collect()
        };
        Buffers {
            workspace: marked(&self.workspace),
            output: marked(&self.output),
            index: marked(&self.index),
        }
    }
}

/// What a call answered: the number and the length, and figures that are 0 where the operation
/// has none: the length of an edited plan's index, start and kind of a block, name and number of
/// arguments of what stands at a path, the position at which a tree is at fault, the score, the least
/// and greatest score of a loose plan, and the cost of a run.
#[derive(Clone, Copy, Debug, Default, PartialEq, Eq)]
pub struct Answer {
    pub number: u32,
    pub length: u64,
    pub index_length: u64,
    pub start: u64,
    pub kind: u32,
    pub name: u32,
    pub arguments: u32,
    pub position: u64,
    pub score: i64,
    pub ends: [i64; 2],
    pub cost: u32,
}

/// An input of a call, as it is shown.
#[derive(Clone, Copy, Debug)]
pub enum Input<'a> {
    Bytes(&'a [u8]),
    Number(u64),
}

/// Lent buffers hold these bytes at the start.
pub const WORKSPACE_MARK: u8 = 0xAA;
pub const OUTPUT_MARK: u8 = 0xBB;

impl From<Outcome> for Answer {
    fn from(outcome: Outcome) -> Answer {
        let (number, length) = (outcome.number(), outcome.length());
        Answer { number, length, ..Answer::default() }
    }
}

impl From<Run> for Answer {
    fn from(run: Run) -> Answer {
        Answer { cost: run.cost, ..run.outcome.into() }
    }
}

impl From<Score> for Answer {
    fn from(score: Score) -> Answer {
        Answer { score: score.score, ..score.outcome.into() }
    }
}

impl From<LooseScore> for Answer {
    fn from(score: LooseScore) -> Answer {
        let ends = [score.ends.least, score.ends.greatest];
        Answer { ends, ..score.outcome.into() }
    }
}

impl From<Edit> for Answer {
    fn from(edit: Edit) -> Answer {
        Answer { index_length: edit.index_length, ..edit.outcome.into() }
    }
}

impl From<Block<'_>> for Answer {
    fn from(block: Block) -> Answer {
        Answer { start: block.start, kind: block.kind, ..block.outcome.into() }
    }
}

impl From<Node> for Answer {
    fn from(node: Node) -> Answer {
        let Node { outcome, kind, name, arguments } = node;
        Answer { kind, name, arguments, ..outcome.into() }
    }
}

impl From<Located> for Answer {
    fn from(located: Located) -> Answer {
        Answer { position: located.position, ..located.outcome.into() }
    }
}

impl Call {
    /// The name of the operation.
    pub fn operation(&self) -> &'static str {
        match self {
            Call::CheckLanguage(_) => "check_language",
            Call::CheckTranslation(_) => "check_translation",
            Call::CheckTree(_) => "check_tree",
            Call::Reduce(_) => "reduce",
            Call::Run(_) => "run",
            Call::Score(_) => "score",
            Call::ScoreLoose(_) => "score_loose",
            Call::JoinTable(_) => "join_table",
            Call::Export(_) => "export",
            Call::Import(_) => "import",
            Call::Index(_) => "index",
            Call::Block(_) => "block",
            Call::Node(_) => "node",
            Call::Locate(_) => "locate",
            Call::Edit(_) => "edit",
            Call::Mask(_) => "mask",
            Call::Search(_) => "search",
        }
    }

    /// Marked buffers of the lengths that the call is to have.
    pub fn buffers(&self) -> Buffers {
        let (workspace, output, index) = match self {
            Call::Reduce(case) => (case.workspace, case.output, 0),
            Call::Search(case) => (case.workspace, case.output, 0),
            Call::Run(case) => (0, case.output, 0),
            Call::JoinTable(case) => (0, case.output, 0),
            Call::Export(case) => (0, case.output, 0),
            Call::Import(case) => (0, case.output, 0),
            Call::Index(case) => (0, case.output, 0),
            Call::Mask(case) => (0, case.output, 0),
            Call::Edit(case) => (0, case.plan, case.plan_index),
            _ => (0, 0, 0),
        };
        Buffers {
            workspace: vec![WORKSPACE_MARK; workspace],
            output: vec![OUTPUT_MARK; output],
            index: vec![OUTPUT_MARK; index],
        }
    }

    /// The bytes that the call is handed, by their names, in the order of the header.
    pub fn files(&self) -> Vec<(&'static str, &[u8])> {
        let in_language = |language, name, tree| vec![("language", language), (name, tree)];
        match self {
            Call::CheckLanguage(language) => vec![("language", language)],
            Call::CheckTranslation(translation) => vec![("translation", translation)],
            Call::CheckTree(case) | Call::Locate(case) => {
                in_language(&case.language[..], "tree", &case.tree[..])
            }
            Call::Reduce(case) => vec![("pack", &case.pack)],
            Call::Run(case) => vec![("translation", &case.translation), ("tree", &case.tree)],
            Call::Score(case) | Call::ScoreLoose(case) => {
                vec![("language", &case.language), ("tree", &case.tree), ("table", &case.table)]
            }
            Call::JoinTable(case) => {
                vec![("translation", &case.translation), ("table", &case.table)]
            }
            Call::Export(case) => in_language(&case.language, "tree", &case.tree),
            Call::Import(case) => in_language(&case.language, "text", &case.text),
            Call::Index(case) => in_language(&case.language, "tree", &case.tree),
            Call::Block(case) | Call::Node(case) => {
                let BlockCase { language, tree, index, path, .. } = case;
                vec![("language", language), ("tree", tree), ("index", index), ("path", path)]
            }
            Call::Edit(case) => {
                let EditCase { language, tree, index, path, card, block, .. } = case;
                let of_tree = [("language", &language[..]), ("tree", tree), ("index", index)];
                [&of_tree[..], &[("path", path), ("card", card), ("block", block)]].concat()
            }
            Call::Mask(case) => {
                vec![("language", &case.language), ("card", &case.card), ("tree", &case.tree)]
            }
            Call::Search(case) => vec![("translation", &case.translation), ("tree", &case.tree)],
        }
    }

    /// The root, if the call has one.
    pub fn root(&self) -> Option<u32> {
        match self {
            Call::CheckTree(case) | Call::Locate(case) => Some(case.root),
            Call::Run(case) => Some(case.root),
            Call::Score(case) | Call::ScoreLoose(case) => Some(case.root),
            Call::Export(case) => Some(case.root),
            Call::Import(case) => Some(case.root),
            Call::Index(case) => Some(case.root),
            Call::Block(case) | Call::Node(case) => Some(case.root),
            Call::Edit(case) => Some(case.root),
            Call::Mask(case) => Some(case.root),
            Call::Search(case) => Some(case.root),
            _ => None,
        }
    }

    /// The number of a run or the limit of a search.
    pub fn number(&self) -> Option<(&'static str, u32)> {
        match self {
            Call::Run(case) => Some(("number", case.number)),
            Call::Search(case) => Some(("limit", case.limit)),
            _ => None,
        }
    }

    /// All inputs by name, with the lengths of the buffers.
    pub fn inputs(&self) -> Vec<(&'static str, Input<'_>)> {
        let files = self.files().into_iter().map(|(name, bytes)| (name, Input::Bytes(bytes)));
        let roots = self.root().map(|root| ("root", root));
        let numbers = roots.into_iter().chain(self.number());
        let Buffers { workspace, output, index } = self.buffers();
        let lengths = [("workspace length", workspace.len()), ("output length", output.len())];
        let lengths = lengths.into_iter().chain([("index length", index.len())]);
        files
            .chain(numbers.map(|(name, number)| (name, Input::Number(u64::from(number)))))
            .chain(lengths.map(|(name, length)| (name, Input::Number(length as u64))))
            .collect()
    }

    /// Calls the reference.
    pub fn by_reference(&self, buffers: &mut Buffers) -> Answer {
        let Buffers { workspace, output, index: plan_index } = buffers;
        match self {
            Call::CheckLanguage(language) => check_language(language).into(),
            Call::CheckTranslation(translation) => check_translation(translation).into(),
            Call::CheckTree(case) => check_tree(&case.language, case.root, &case.tree).into(),
            Call::Reduce(case) => reduce(&case.pack, workspace, output).into(),
            Call::Run(case) => {
                run(&case.translation, case.root, case.number, &case.tree, output).into()
            }
            Call::Score(case) => score(&case.language, case.root, &case.tree, &case.table).into(),
            Call::ScoreLoose(case) => {
                score_loose(&case.language, case.root, &case.tree, &case.table).into()
            }
            Call::JoinTable(case) => join_table(&case.translation, &case.table, output).into(),
            Call::Export(case) => export(&case.language, case.root, &case.tree, output).into(),
            Call::Import(case) => import(&case.language, case.root, &case.text, output).into(),
            Call::Index(case) => index(&case.language, case.root, &case.tree, output).into(),
            Call::Block(case) => {
                block(&case.language, case.root, &case.tree, &case.index, &case.path).into()
            }
            Call::Node(case) => {
                node(&case.language, case.root, &case.tree, &case.index, &case.path).into()
            }
            Call::Locate(case) => locate(&case.language, case.root, &case.tree).into(),
            Call::Edit(case) => edit(&case.input(), output, plan_index).into(),
            Call::Search(case) => {
                let SearchCase { translation, root, tree, limit, .. } = case;
                search(translation, *root, tree, *limit, workspace, output).into()
            }
            Call::Mask(case) => {
                mask(&case.language, case.root, &case.card, &case.tree, output).into()
            }
        }
    }

    /// Calls the library.
    #[cfg(feature = "library")]
    pub fn by_library(&self, buffers: &mut Buffers) -> Answer {
        let Buffers { workspace, output, index: plan_index } = buffers;
        let checked = |number| Answer { number, ..Answer::default() };
        match self {
            Call::CheckLanguage(language) => checked(library::check_language(language)),
            Call::CheckTranslation(bytes) => checked(library::check_translation(bytes)),
            Call::CheckTree(case) => {
                checked(library::check_tree(&case.language, case.root, &case.tree))
            }
            Call::Reduce(case) => library::reduce(&case.pack, workspace, output).into(),
            Call::Run(case) => {
                library::run(&case.translation, case.root, case.number, &case.tree, output).into()
            }
            Call::Score(case) => {
                library::score(&case.language, case.root, &case.tree, &case.table).into()
            }
            Call::ScoreLoose(case) => {
                library::score_loose(&case.language, case.root, &case.tree, &case.table).into()
            }
            Call::JoinTable(case) => {
                library::join_table(&case.translation, &case.table, output).into()
            }
            Call::Export(case) => {
                library::export(&case.language, case.root, &case.tree, output).into()
            }
            Call::Import(case) => {
                library::import(&case.language, case.root, &case.text, output).into()
            }
            Call::Index(case) => {
                library::index(&case.language, case.root, &case.tree, output).into()
            }
            Call::Block(case) => {
                library::block(&case.language, case.root, &case.tree, &case.index, &case.path)
                    .into()
            }
            Call::Node(case) => interface::node(case),
            Call::Locate(case) => interface::locate(case),
            Call::Edit(case) => library_edit(case, output, plan_index).into(),
            Call::Search(case) => {
                let SearchCase { translation, root, tree, limit, .. } = case;
                library::search(translation, *root, tree, *limit, workspace, output).into()
            }
            Call::Mask(case) => {
                library::mask(&case.language, case.root, &case.card, &case.tree, output).into()
            }
        }
    }
}

/// Edits a plan by the library.
#[cfg(feature = "library")]
pub fn library_edit(
    case: &EditCase,
    plan: &mut [u8],
    plan_index: &mut [u8],
) -> library::EditAnswer {
    let EditCase { language, tree, index, path, card, block, .. } = case;
    library::edit(language, case.root, tree, index, path, card, block, plan, plan_index)
}

#[cfg(feature = "library")]
impl From<library::EditAnswer> for Answer {
    fn from(answer: library::EditAnswer) -> Answer {
        let library::EditAnswer { number, plan_length, index_length } = answer;
        Answer { number, length: plan_length, index_length, ..Answer::default() }
    }
}

#[cfg(feature = "library")]
impl From<library::Answer> for Answer {
    fn from(answer: library::Answer) -> Answer {
        let library::Answer { number, length } = answer;
        Answer { number, length, ..Answer::default() }
    }
}

#[cfg(feature = "library")]
impl From<library::RunAnswer> for Answer {
    fn from(answer: library::RunAnswer) -> Answer {
        let library::RunAnswer { number, length, cost } = answer;
        Answer { number, length, cost, ..Answer::default() }
    }
}

#[cfg(feature = "library")]
impl From<library::BlockAnswer> for Answer {
    fn from(answer: library::BlockAnswer) -> Answer {
        let library::BlockAnswer { number, start, length, kind } = answer;
        Answer { number, length, start, kind, ..Answer::default() }
    }
}

#[cfg(feature = "library")]
impl From<library::ScoreAnswer> for Answer {
    fn from(answer: library::ScoreAnswer) -> Answer {
        let library::ScoreAnswer { number, score } = answer;
        Answer { number, score, ..Answer::default() }
    }
}

#[cfg(feature = "library")]
impl From<library::LooseScoreAnswer> for Answer {
    fn from(answer: library::LooseScoreAnswer) -> Answer {
        let library::LooseScoreAnswer { number, least, greatest } = answer;
        Answer { number, ends: [least, greatest], ..Answer::default() }
    }
}
