//! The folders of examples, on the reference: packs, what they reduce to, their listings, the runs of
//! trees, exports and imports, joined load tables and scores, blocks, and searches for sessions.

use reference::listing::listing;
use reference::{block, export, import, index, join_table, reduce, run, score, search};
use std::fs;
use std::path::{Path, PathBuf};

/// Room to reduce with, and for the results of the runs.
const WORKSPACE: usize = 65_536;
const OUTPUT: usize = 1 << 16;

/// The files of all folders of examples that have this ending.
fn files(ending: &str) -> Vec<PathBuf> {
    let examples = Path::new(env!("CARGO_MANIFEST_DIR")).join("../examples");
    let entries = |folder: &Path| -> Vec<PathBuf> {
        let entries = fs::read_dir(folder).expect("a folder of examples can be read");
        entries.map(|entry| entry.expect("an entry can be read").path()).collect()
    };
    let folders = entries(&examples).into_iter().filter(|path| path.is_dir());
    let all = folders.flat_map(|folder| entries(&folder));
    all.filter(|path| path.to_string_lossy().ends_with(ending)).collect()
}

/// The bytes of a file.
fn bytes(path: &Path) -> Vec<u8> {
    fs::read(path).unwrap_or_else(|error| panic!("{}: {error}", path.display()))
}

/// The text of a file.
fn text(path: &Path) -> String {
    String::from_utf8(bytes(path)).expect("a file of text")
}

/// What a pack reduces to.
fn reduced(pack: &Path) -> Vec<u8> {
    let mut output = vec![0; OUTPUT];
    let outcome = reduce(&bytes(pack), &mut vec![0; WORKSPACE], &mut output);
    assert_eq!(outcome.number(), 0, "{}", pack.display());
    output[..outcome.length() as usize].to_vec()
}

/// What a tree or a session is run or searched by: a pack, a root, a number or a limit of levels, and
/// the name of what comes of it.
struct By {
    pack: PathBuf,
    root: u32,
    number: u32,
    beside: PathBuf,
}

/// What the lines of a source name, the first and those that begin with "Also": behind a verb the pack
/// and the root, and behind a word the number, which is 0 if there is none.
fn all_by(source: &Path, verb: &str, word: &str) -> Vec<By> {
    let text = text(source);
    let also = format!("# Also {} by ", verb.to_lowercase());
    let first = text.lines().next().and_then(|line| line.strip_prefix(&format!("# {verb} by ")));
    let others = text.lines().filter_map(|line| line.strip_prefix(&also));
    let lines = first.into_iter().chain(others);
    lines.map(|line| by(source, line, word)).collect()
}

/// What a line of a source names.
fn by(source: &Path, line: &str, word: &str) -> By {
    let (pack, words) = line.split_once(", root ").expect("a pack and a root");
    let (words, name) = words.split_once(", as ").unwrap_or((words, ""));
    let words = words.trim_end_matches('.');
    let (root, number) = words.split_once(&format!(", {word} ")).unwrap_or((words, "0"));
    let name = name.split(['.', ':']).next().unwrap_or_default();
    let own = source.with_extension("").with_extension("");
    let beside = if name.is_empty() { own } else { source.with_file_name(name) };
    By {
        pack: source.with_file_name(pack),
        root: root.parse().expect("a root"),
        number: number.parse().expect("a number"),
        beside,
    }
}

/// The pack and the root that the first line of a tree's source names.
fn run_by(source: &Path) -> (PathBuf, u32) {
    let first = all_by(source, "Run", "number").remove(0);
    (first.pack, first.root)
}

/// What the run of a tree gives, as its transcript has it.
fn result(source: &Path, by: &By) -> String {
    let tree = bytes(&source.with_extension(""));
    let mut output = vec![0; OUTPUT];
    let found = run(&reduced(&by.pack), by.root, by.number, &tree, &mut output);
    let cost = format!("cost {}\n", found.cost);
    match found.number() {
        0 => accepted(&output[..found.length() as usize], &cost),
        number => format!("refused {number}"),
    }
}

/// What is printed for a result: its length, other figures, and its bytes in lines of 32.
fn accepted(bytes: &[u8], figures: &str) -> String {
    let digits = |line: &[u8]| line.iter().map(|byte| format!("{byte:02X}")).collect::<String>();
    let lines: String = bytes.chunks(32).map(|line| digits(line) + "\n").collect();
    format!("accepted {}\n{figures}{lines}", bytes.len())
}

/// A transcript; of a refusal, whose sentence the reference does not know, up to its number.
fn transcript(path: &Path) -> String {
    let text = text(path);
    match text.split_once(": ") {
        Some((refused, _)) if refused.starts_with("refused ") => refused.to_string(),
        _ => text,
    }
}

/// What a path leads to, as the file of its block has it.
fn block_at(source: &Path) -> String {
    let text = text(source);
    let line = text.lines().next().and_then(|line| line.strip_prefix("# Block of "));
    let words = line.and_then(|line| line.strip_suffix('.'));
    let (tree, words) = words.and_then(|words| words.split_once(" in ")).expect("a tree");
    let (language, root) = words.split_once(", root ").expect("a language and a root");
    let beside = |name| bytes(&source.with_file_name(name));
    let (tree, path) = (beside(tree), bytes(&source.with_extension("")));
    let (language, root) = (beside(language), root.parse().expect("a root"));
    let mut built = vec![0; 4 * tree.len()];
    let length = index(&language, root, &tree, &mut built).length() as usize;
    let found = block(&language, root, &tree, &built[..length], &path);
    match found.outcome.number() {
        0 => accepted(found.part, &format!("kind {}, start {}\n", found.kind, found.start)),
        number => format!("refused {number}"),
    }
}

#[test]
fn packs_reduce_to_the_translations_beside_them() {
    let packs = files(".pack");
    assert!(!packs.is_empty());
    for pack in packs {
        assert_eq!(
            reduced(&pack),
            bytes(&pack.with_extension("translation")),
            "{}",
            pack.display()
        );
        assert_eq!(listing(&bytes(&pack)), text(&pack.with_extension("expected")));
    }
}

#[test]
fn trees_run_to_the_results_beside_them() {
    let sources = files(".tree.hex");
    assert!(!sources.is_empty());
    for source in sources {
        for by in all_by(&source, "Run", "number") {
            let beside = by.beside.with_extension("result");
            assert_eq!(result(&source, &by), transcript(&beside), "{}", beside.display());
        }
    }
}

#[test]
fn paths_lead_to_the_blocks_beside_them() {
    let sources = files(".path.hex");
    assert!(!sources.is_empty());
    for source in sources {
        let beside = source.with_extension("").with_extension("block");
        assert_eq!(block_at(&source), transcript(&beside), "{}", source.display());
    }
}

/// The language that the second line of a tree's source names for its XML.
fn xml_language(source: &Path) -> PathBuf {
    let text = text(source);
    let line = text.lines().nth(1).and_then(|line| line.strip_prefix("# As XML in "));
    source.with_file_name(line.and_then(|line| line.strip_suffix('.')).expect("a language"))
}

#[test]
fn texts_are_the_exports_of_the_trees_beside_them() {
    let texts = files(".xml");
    assert!(!texts.is_empty());
    for path in texts {
        let (tree, text) = (bytes(&path.with_extension("tree")), bytes(&path));
        let source = path.with_extension("tree.hex");
        let ((_, root), language) = (run_by(&source), bytes(&xml_language(&source)));
        let mut output = vec![0; OUTPUT];
        let outcome = export(&language, root, &tree, &mut output);
        assert_eq!(output[..outcome.length() as usize], text, "{}", path.display());
        let outcome = import(&language, root, &text, &mut output);
        assert_eq!(output[..outcome.length() as usize], tree, "{}", path.display());
    }
}

/// The language of a load table and the pack that it is joined onto, by the first line of its source.
fn table_of(source: &Path) -> (PathBuf, PathBuf) {
    let text = text(source);
    let line = text.lines().next().and_then(|line| line.strip_prefix("# Load table of "));
    let words = line.and_then(|line| line.strip_suffix('.'));
    let words = words.and_then(|words| words.split_once(", joined onto "));
    let (language, pack) = words.expect("the first line names a language and a pack");
    (source.with_file_name(language), source.with_file_name(pack))
}

/// A load table joined onto the pack that its source names.
fn joined(source: &Path) -> Vec<u8> {
    let (_, pack) = table_of(source);
    let mut output = vec![0; OUTPUT];
    let outcome = join_table(&reduced(&pack), &bytes(&source.with_extension("")), &mut output);
    assert_eq!(outcome.number(), 0, "{}", source.display());
    output.truncate(outcome.length() as usize);
    output
}

#[test]
fn tables_are_joined_as_the_files_beside_them() {
    let sources = files(".table.hex");
    assert!(!sources.is_empty());
    for source in sources {
        let beside = source.with_extension("").with_extension("joined");
        assert_eq!(joined(&source), bytes(&beside), "{}", source.display());
    }
}

/// The score of a tree by the joined table, as its file has it; that of its run by the table is the
/// same.
fn scores(source: &Path) -> String {
    let line = text(source).lines().nth(2).map(str::to_string);
    let words = line.as_deref().and_then(|line| line.strip_prefix("# Scored in "));
    let words = words.and_then(|words| words.strip_suffix('.')?.split_once(" by "));
    let (language, table) = words.expect("the third line names a language and a table");
    let table = source.with_file_name(format!("{table}.hex"));
    let (tree, (pack, root)) = (bytes(&source.with_extension("")), run_by(source));
    let first = score(&bytes(&source.with_file_name(language)), root, &tree, &joined(&table));
    let mut output = vec![0; OUTPUT];
    let length = run(&reduced(&pack), root, 0, &tree, &mut output).length() as usize;
    let (target, by) = (bytes(&table_of(&table).0), bytes(&table.with_extension("")));
    let second = score(&target, root, &output[..length], &by);
    assert_eq!((first.outcome.number(), second.outcome.number()), (0, 0));
    assert_eq!(first.score, second.score);
    format!("accepted {}\n", first.score)
}

#[test]
fn trees_score_as_the_files_beside_them() {
    let found = files(".score");
    assert!(!found.is_empty());
    for path in found {
        assert_eq!(scores(&path.with_extension("tree.hex")), text(&path), "{}", path.display());
    }
}

/// What is found for a session, as its transcript has it.
fn found(source: &Path, by: &By) -> String {
    let (translation, session) = (reduced(&by.pack), bytes(&source.with_extension("")));
    let mut output = vec![0; OUTPUT];
    let outcome = search(&translation, by.root, &session, by.number, &mut [], &mut output);
    match outcome.number() {
        0 => accepted(&output[..outcome.length() as usize], ""),
        number => format!("refused {number}"),
    }
}

#[test]
fn sessions_have_the_plans_beside_them() {
    let sources = files(".session.hex");
    assert!(!sources.is_empty());
    for source in sources {
        for by in all_by(&source, "Searched", "level limit") {
            let beside = by.beside.with_extension("found");
            assert_eq!(found(&source, &by), transcript(&beside), "{}", beside.display());
        }
    }
}
