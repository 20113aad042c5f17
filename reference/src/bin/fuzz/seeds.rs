//! The files of the examples, by their sorts, and which of them fit together.

use reference::generate::{index_bytes, lenient_text, unit_table, unit_target_table, TreeCase};
use reference::{check_tree, join_table, run, score, score_loose, search};
use std::fs;
use std::path::{Path, PathBuf};

/// Room for the runs of the examples.
const OUTPUT: usize = 1 << 16;
/// Roots and numbers that the examples have are below these.
const ROOTS: u32 = 8;
const NUMBERS: u32 = 3;
/// The limit of levels of the searches that are looked for.
const LIMIT: u32 = 8;

/// Some bytes.
pub type Bytes = Vec<u8>;

/// A tree with a translation, of whose source it is, and a number by which it can be run.
#[derive(Clone)]
pub struct Runnable {
    pub translation: Bytes,
    pub root: u32,
    pub number: u32,
    pub tree: Bytes,
}

/// All files, and those that fit together: what an operation accepts.
pub struct Seeds {
    /// All files, of whatever sort, and exports of trees.
    pub files: Vec<Bytes>,
    pub languages: Vec<Bytes>,
    pub translations: Vec<Bytes>,
    pub packs: Vec<Bytes>,
    pub cards: Vec<Bytes>,
    pub paths: Vec<Bytes>,
    /// Legal trees.
    pub trees: Vec<TreeCase>,
    /// Exports of legal trees, in the place of the tree.
    pub texts: Vec<TreeCase>,
    /// Loose plans, each with a table.
    pub loose: Vec<(TreeCase, Bytes)>,
    /// Trees, each with a table.
    pub scored: Vec<(TreeCase, Bytes)>,
    /// Translations, each with a table of its target.
    pub joined: Vec<(Bytes, Bytes)>,
    pub runs: Vec<Runnable>,
    /// Trees of the target that a search finds a source tree for.
    pub found: Vec<Runnable>,
}

/// The files below a folder, in the order of their names.
fn files_below(folder: &Path) -> Vec<PathBuf> {
    let entries = fs::read_dir(folder).expect("the folder of examples can be read");
    let mut entries: Vec<PathBuf> =
        entries.map(|entry| entry.expect("an entry can be read").path()).collect();
    entries.sort();
    let below = |path: PathBuf| if path.is_dir() { files_below(&path) } else { vec![path] };
    entries.into_iter().flat_map(below).collect()
}

/// The contents of the files with one of these endings.
fn with_ending(files: &[PathBuf], endings: &[&str]) -> Vec<Bytes> {
    let ends = |path: &&PathBuf| {
        path.extension().is_some_and(|ending| endings.iter().any(|one| ending == *one))
    };
    let read = |path: &PathBuf| fs::read(path).expect("a file of the examples can be read");
    files.iter().filter(ends).map(read).collect()
}

/// The contents of the fields of a translation that hold its languages.
fn languages_in(translation: &[u8]) -> Vec<Bytes> {
    let (mut rest, mut languages) = (translation, vec![]);
    while let [0x20 | 0x21, high, low, behind @ ..] = rest {
        let (language, fields) = behind.split_at(usize::from(*high) * 256 + usize::from(*low));
        languages.push(language.to_vec());
        rest = fields;
    }
    languages
}

/// All pairs of a language and bytes, with each root.
fn in_languages<'a>(
    languages: &'a [Bytes],
    trees: &'a [Bytes],
) -> impl Iterator<Item = TreeCase> + 'a {
    languages.iter().flat_map(move |language| {
        trees.iter().flat_map(move |tree| {
            let (language, tree) = (language.clone(), tree.clone());
            (0..ROOTS).map(move |root| TreeCase {
                language: language.clone(),
                root,
                tree: tree.clone(),
            })
        })
    })
}

/// All trees by each translation, root and number.
fn by_translations<'a>(
    translations: &'a [Bytes],
    trees: &'a [Bytes],
) -> impl Iterator<Item = Runnable> + 'a {
    translations.iter().flat_map(move |translation| {
        trees.iter().flat_map(move |tree| {
            (0..ROOTS * NUMBERS).map(move |both| {
                let (root, number) = (both / NUMBERS, both % NUMBERS);
                Runnable { translation: translation.clone(), root, number, tree: tree.clone() }
            })
        })
    })
}

/// What a run gives, if it is accepted.
fn ran(case: &Runnable) -> Option<Bytes> {
    let Runnable { translation, root, number, tree } = case;
    let mut output = vec![0; OUTPUT];
    let outcome = run(translation, *root, *number, tree, &mut output);
    output.truncate(outcome.length() as usize);
    (outcome.number() == 0).then_some(output)
}

/// Whether a search finds a source tree.
fn is_found(case: &Runnable) -> bool {
    let Runnable { translation, root, tree, .. } = case;
    let output = &mut vec![0; OUTPUT];
    search(translation, *root, tree, LIMIT, &mut [], output).number() == 0
}

/// The trees that a table scores, each with the table, the one of ones among them.
fn scored_by(trees: &[TreeCase], tables: &[Bytes]) -> Vec<(TreeCase, Bytes)> {
    let pairs = trees.iter().flat_map(|case| {
        let own = unit_table(&case.language);
        tables.iter().cloned().chain([own]).map(|table| (case.clone(), table))
    });
    let fits = |(case, table): &(TreeCase, Bytes)| {
        score(&case.language, case.root, &case.tree, table).outcome.number() == 0
    };
    pairs.filter(fits).collect()
}

/// The loose plans that a table scores, each with the table.
fn loose_by(plans: &[Bytes], languages: &[Bytes], tables: &[Bytes]) -> Vec<(TreeCase, Bytes)> {
    let cases = in_languages(languages, plans).collect::<Vec<_>>();
    let pairs = cases.iter().flat_map(|case| {
        let own = unit_table(&case.language);
        tables.iter().cloned().chain([own]).map(|table| (case.clone(), table))
    });
    let fits = |(case, table): &(TreeCase, Bytes)| {
        score_loose(&case.language, case.root, &case.tree, table).outcome.number() == 0
    };
    pairs.filter(fits).collect()
}

/// The tables that can be joined onto a translation, the one of ones among them.
fn joined_onto(translations: &[Bytes], tables: &[Bytes]) -> Vec<(Bytes, Bytes)> {
    let pairs = translations.iter().flat_map(|translation| {
        let own = unit_target_table(translation);
        tables.iter().cloned().chain([own]).map(|table| (translation.clone(), table))
    });
    let fits = |(translation, table): &(Bytes, Bytes)| {
        join_table(translation, table, &mut vec![0; OUTPUT]).number() == 0
    };
    pairs.filter(fits).collect()
}

impl Seeds {
    /// Reads the folder of examples.
    pub fn read() -> Seeds {
        let paths = files_below(&Path::new(env!("CARGO_MANIFEST_DIR")).join("../examples"));
        let of = |endings: &[&str]| with_ending(&paths, endings);
        let translations = of(&["translation"]);
        let inner = translations.iter().flat_map(|translation| languages_in(translation));
        let mut languages: Vec<Bytes> = of(&["language"]).into_iter().chain(inner).collect();
        languages.sort();
        languages.dedup();
        let plans = of(&["tree", "plan", "session", "edit"]);
        let is_legal =
            |case: &TreeCase| check_tree(&case.language, case.root, &case.tree).number() == 0;
        let trees: Vec<TreeCase> = in_languages(&languages, &plans).filter(is_legal).collect();
        let tables = of(&["table", "joined"]);
        let runs: Vec<Runnable> =
            by_translations(&translations, &plans).filter(|case| ran(case).is_some()).collect();
        let targets =
            runs.iter().filter_map(|case| Some(Runnable { tree: ran(case)?, ..case.clone() }));
        let found = targets.filter(is_found).collect();
        let text = |case: &TreeCase| Some(TreeCase { tree: lenient_text(case)?, ..case.clone() });
        let texts: Vec<TreeCase> = trees.iter().filter_map(text).collect();
        let binary =
            ["language", "translation", "pack", "tree", "plan", "session", "edit", "table"];
        let others = ["joined", "card", "index", "path", "xml", "loose"];
        Seeds {
            files: of(&[&binary[..], &others].concat()),
            packs: of(&["pack"]),
            cards: of(&["card"]),
            paths: of(&["path"]),
            loose: loose_by(&of(&["loose"]), &languages, &tables),
            scored: scored_by(&trees, &tables),
            joined: joined_onto(&translations, &tables),
            languages,
            translations,
            trees,
            texts,
            runs,
            found,
        }
    }

    /// How many there are of each sort, none of which may be missing.
    pub fn counts(&self) -> [usize; 12] {
        [
            self.files.len(),
            self.languages.len(),
            self.translations.len(),
            self.packs.len(),
            self.cards.len(),
            self.paths.len(),
            self.trees.len(),
            self.texts.len(),
            self.loose.len(),
            self.scored.len(),
            self.joined.len(),
            self.runs.len().min(self.found.len()),
        ]
    }
}

/// The index of a tree if it is legal; none of another.
pub fn index_of(case: &TreeCase) -> Bytes {
    index_bytes(case)
}
