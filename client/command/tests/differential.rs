//! The command on generated cases, in process: its first line, status and result are those of the
//! library, a refusal leaves the file of `-o` as it was, and both routes of a join are equal.

use algebra::{
    Block, BlockPath, Card, Edited, Index, Kind, Language, Levels, LoadTable, LoosePlan,
    LooseScore, MappingNumber, NewBlock, Node, Pack, Plan, Ran, Refusal, Translation, Tree, Xml,
    TRANSLATION_BYTES,
};
use algebra_command::{command, Streams, ACCEPTED, REFUSED};
use reference::generate::{
    block_case, export_case, import_case, join_table_case, language_file, law_pack, long_run_case,
    pack_with_term, reduce_case, run_case, score_case, source_tree, translation_file, tree_case,
    BlockCase, Random, RunCase,
};
use reference::steps::{languages, mapped_kind};
use std::ffi::OsString;
use std::fmt::Display;
use std::fs;
use std::path::PathBuf;

/// So many cases of each verb are generated.
const CASES: u64 = 1000;
/// So many of them have long trees.
const LONG_CASES: u64 = 10;
/// About so many nodes of a plan are looked up, each by a call that reads the whole plan.
const LOOKED_UP: usize = 50;
/// In so many of a hundred cases the result is written to a file.
const WRITTEN: usize = 50;
/// Files are made here if it is there, since the command writes down to the disk.
const MEMORY_FOLDER: &str = "/dev/shm";
/// What the file of `-o` holds before a call.
const OLD: &[u8] = b"old";
/// The length of an output that is long enough for most results.
const LIMIT: usize = 20_000;

/// A folder with the files of one case.
struct Folder(PathBuf);

/// What a call printed, and its status.
struct Printed {
    status: u8,
    output: Vec<u8>,
    messages: String,
    /// Whether files were hexadecimal text.
    hexadecimal: bool,
}

/// An input of a call, a root, a path, or an option that a file follows.
enum Operand<'a> {
    File(&'a [u8]),
    /// A file that is never hexadecimal.
    Text(&'a [u8]),
    Root(u32),
    Path(&'a [u8]),
    Word(&'static str),
}

use Operand::{File, Path, Root, Text, Word};

impl Operand<'_> {
    /// The contents of a file, or the word of an operand that is none.
    fn contents(&self, hexadecimal: bool) -> Result<Vec<u8>, String> {
        match self {
            Root(root) => Err(root.to_string()),
            Path(numbers) => Err(path_text(numbers)),
            Word(word) => Err(word.to_string()),
            Text(bytes) => Ok(bytes.to_vec()),
            File(bytes) => Ok(encoded(bytes, hexadecimal)),
        }
    }
}

impl Folder {
    /// A new folder.
    fn new(name: &str) -> Folder {
        let name = format!("algebra-differential-{name}-{}", std::process::id());
        let memory = PathBuf::from(MEMORY_FOLDER);
        let parent = if memory.is_dir() { memory } else { std::env::temp_dir() };
        let path = parent.join(name);
        fs::create_dir_all(&path).expect("a folder can be made");
        Folder(path)
    }

    /// Calls the command on files with these contents; one of them may come from the standard
    /// input, and all may be hexadecimal text.
    fn call(
        &self,
        random: &mut Random,
        verbs: &[&str],
        operands: &[Operand],
        options: &[String],
    ) -> Printed {
        let hexadecimal = random.percent(30);
        let piped = random.below(2 * operands.len());
        let mut arguments: Vec<OsString> = verbs.iter().map(OsString::from).collect();
        let mut input = vec![];
        for (place, operand) in operands.iter().enumerate() {
            arguments.push(match operand.contents(hexadecimal) {
                Err(word) => word.into(),
                Ok(contents) if place == piped => {
                    input = contents;
                    "-".into()
                }
                Ok(contents) => self.operand(place, &contents),
            });
        }
        arguments.extend(options.iter().map(OsString::from));
        arguments.extend(first_file(verbs).map(OsString::from));
        arguments.push(if hexadecimal { "--hex" } else { "--bytes" }.into());
        Printed { hexadecimal, ..called(&arguments, &input) }
    }

    /// Writes the file of an operand and gives its name.
    fn operand(&self, place: usize, bytes: &[u8]) -> OsString {
        let path = self.0.join(format!("operand{place}"));
        fs::write(&path, bytes).expect("a file can be written");
        path.into_os_string()
    }

    /// The file that `-o` names.
    fn result(&self) -> PathBuf {
        self.0.join("result")
    }

    /// The options that name the file, after it is made to hold what is old.
    fn output_options(&self) -> Vec<String> {
        fs::write(self.result(), OLD).expect("a file can be written");
        vec!["-o".to_string(), self.result().display().to_string()]
    }

    /// The bytes of the file after a call.
    fn written(&self, printed: &Printed) -> Vec<u8> {
        let file = fs::read(self.result()).expect("the file is there");
        if printed.status != ACCEPTED || !printed.hexadecimal {
            return file;
        }
        let text = String::from_utf8(file).expect("hexadecimal text");
        decoded(&text).expect("hexadecimal text")
    }
}

/// The option that says what the first file of a verb is, whatever its first byte, if it takes one.
fn first_file(verbs: &[&str]) -> Option<&'static str> {
    match *verbs.last()? {
        "check-tree" | "locate" | "score" | "score-loose" | "export" | "import" => {
            Some("--as=language")
        }
        "index" | "block" | "node" | "edit" | "mask" => Some("--as=language"),
        "join-table" => Some("--as=translation"),
        _ => None,
    }
}

impl Drop for Folder {
    /// Removes the folder.
    fn drop(&mut self) {
        let _ = fs::remove_dir_all(&self.0);
    }
}

/// A path as text.
fn path_text(numbers: &[u8]) -> String {
    numbers.iter().map(u8::to_string).collect::<Vec<_>>().join(".")
}

/// The bytes of lines of digits.
fn decoded(text: &str) -> Option<Vec<u8>> {
    let digits: Vec<u32> =
        text.lines().flat_map(str::chars).map_while(|c| c.to_digit(16)).collect();
    let whole = digits.len() == text.lines().map(str::len).sum();
    whole.then(|| digits.chunks(2).map(|pair| (16 * pair[0] + pair[1]) as u8).collect())
}

/// Bytes as they are, or as hexadecimal text.
fn encoded(bytes: &[u8], hexadecimal: bool) -> Vec<u8> {
    match hexadecimal {
        true => bytes.iter().flat_map(|byte| format!("{byte:02x} ").into_bytes()).collect(),
        false => bytes.to_vec(),
    }
}

/// Calls the command with arguments and a standard input.
fn called(arguments: &[OsString], mut input: &[u8]) -> Printed {
    let (mut output, mut messages) = (vec![], vec![]);
    let mut streams = Streams {
        input: &mut input,
        output: &mut output,
        messages: &mut messages,
        terminal: false,
        colour: false,
    };
    let status = command(arguments, &mut streams);
    let messages = String::from_utf8(messages).expect("text");
    Printed { status, output, messages, hexadecimal: false }
}

impl Printed {
    /// The text of the standard output.
    fn text(&self) -> &str {
        std::str::from_utf8(&self.output).expect("text")
    }

    /// Compares the first line, the status and the messages with an answer of the library.
    fn compare<T, F: Display>(
        &self,
        case: u64,
        answer: &Result<T, Refusal>,
        figure: impl Fn(&T) -> F,
    ) {
        assert_eq!(self.messages, "", "case {case}");
        let first = self.text().lines().next().unwrap_or_default();
        match answer {
            Ok(result) => assert_eq!(first, format!("accepted {}", figure(result)), "case {case}"),
            // What follows is a sentence, which may be told by the operation.
            Err(refusal) => {
                let line = format!("refused {}: ", refusal.number());
                assert!(first.starts_with(&line), "case {case}: {first}");
            }
        }
        let status = if answer.is_ok() { ACCEPTED } else { REFUSED };
        assert_eq!(self.status, status, "case {case}");
    }
}

/// What the library gives for a run.
fn ran(
    translation: &[u8],
    root: u32,
    number: u32,
    tree: &[u8],
    limit: usize,
) -> Result<Ran, Refusal> {
    let (translation, number) = (Translation(translation), MappingNumber(number));
    algebra::run_to_vec(translation, Kind(root), number, Tree(tree), limit)
}

/// The index that the library builds, or none.
fn built_index(language: &[u8], root: u32, tree: &[u8]) -> Vec<u8> {
    algebra::index_to_vec(Language(language), Kind(root), Tree(tree)).unwrap_or_default()
}

/// The block that the library finds.
fn looked_up<'a>(
    language: &[u8],
    root: u32,
    tree: &'a [u8],
    index: &[u8],
    path: &[u8],
) -> Result<Block<'a>, Refusal> {
    algebra::block(Language(language), Kind(root), Tree(tree), Index(index), BlockPath(path))
}

/// What the library gives for an edit at the path of a case.
fn edited(input: &BlockCase, index: &[u8], card: Card, block: &[u8]) -> Result<Edited, Refusal> {
    let (language, root) = (Language(&input.language), Kind(input.root));
    let (tree, index, path) = (Tree(&input.tree), Index(index), BlockPath(&input.path));
    algebra::edit_to_vec(language, root, tree, index, path, card, NewBlock(block))
}

/// Calls a check, and its explanation, and compares both with the library's answer.
fn compare_check(
    folder: &Folder,
    case: u64,
    verb: &str,
    operands: &[Operand],
    answer: Result<(), Refusal>,
    expected: u32,
) {
    let random = &mut Random::new(case);
    let printed = folder.call(random, &[verb], operands, &[]);
    printed.compare(case, &answer, |_| 0);
    assert_eq!(printed.text().lines().count(), 1, "case {case}");
    compare_explanation(folder, case, verb, operands, &[], answer.map(|()| 0), expected);
}

/// Calls an explanation. It has the library's first line, and no note, since the second
/// implementation answers with the same number.
fn compare_explanation<F: Copy + Display>(
    folder: &Folder,
    case: u64,
    verb: &str,
    operands: &[Operand],
    options: &[String],
    answer: Result<F, Refusal>,
    expected: u32,
) {
    let printed = folder.call(&mut Random::new(case), &["explain", verb], operands, options);
    printed.compare(case, &answer, |length| *length);
    let number = answer.err().map_or(0, Refusal::number);
    assert_eq!(number, expected, "case {case}");
    assert!(!printed.text().contains("\nnote: "), "case {case}: {}", printed.text());
    assert_eq!(printed.text().contains("\nfault: "), expected != 0, "case {case}");
}

/// Calls a verb with a result, which is written to a file in some cases and printed in others.
fn compare_result(
    folder: &Folder,
    case: u64,
    verb: &str,
    operands: &[Operand],
    options: &[String],
    answer: Result<&[u8], Refusal>,
) {
    compare_with_figures(folder, case, verb, operands, options, answer, "");
}

/// The same, where these lines stand between the first line and the result.
fn compare_with_figures(
    folder: &Folder,
    case: u64,
    verb: &str,
    operands: &[Operand],
    options: &[String],
    answer: Result<&[u8], Refusal>,
    figures: &str,
) {
    let random = &mut Random::new(case);
    let written = random.percent(WRITTEN);
    let output = if written { folder.output_options() } else { vec![] };
    let printed = folder.call(random, &[verb], operands, &[output, options.to_vec()].concat());
    printed.compare(case, &answer, |result| result.len());
    let (_, rest) = printed.text().split_once('\n').expect("a first line");
    let digits = rest.strip_prefix(figures).expect("the figures");
    if written {
        assert_eq!(folder.written(&printed), answer.unwrap_or(OLD), "case {case}");
        assert_eq!(digits, "", "case {case}");
    } else {
        assert_eq!(decoded(digits).as_deref(), Some(answer.unwrap_or_default()), "case {case}");
    }
}

#[test]
fn check_language() {
    let folder = Folder::new("language");
    for case in 0..CASES {
        let file = language_file(&mut Random::new(case));
        let answer = algebra::check_language(Language(&file));
        let expected = reference::check_language(&file).number();
        compare_check(&folder, case, "check-language", &[File(&file)], answer, expected);
    }
}

#[test]
fn check_translation() {
    let folder = Folder::new("translation");
    for case in 0..CASES {
        let file = translation_file(&mut Random::new(case));
        let answer = algebra::check_translation(Translation(&file));
        let expected = reference::check_translation(&file).number();
        compare_check(&folder, case, "check-translation", &[File(&file)], answer, expected);
    }
}

#[test]
fn check_tree() {
    let folder = Folder::new("tree");
    for case in 0..CASES {
        let input = tree_case(&mut Random::new(case));
        let operands = [File(&input.language), Root(input.root), File(&input.tree)];
        let (language, root) = (Language(&input.language), Kind(input.root));
        let answer = algebra::check_tree(language, root, Tree(&input.tree)).map_err(Refusal::from);
        let expected = reference::check_tree(&input.language, input.root, &input.tree).number();
        compare_check(&folder, case, "check-tree", &operands, answer, expected);
    }
}

#[test]
fn locate() {
    let folder = Folder::new("locate");
    let mut placed = 0;
    for case in 0..CASES {
        let input = tree_case(&mut Random::new(case));
        let operands = [File(&input.language), Root(input.root), File(&input.tree)];
        let (language, root) = (Language(&input.language), Kind(input.root));
        let fault = algebra::locate(language, root, Tree(&input.tree));
        let printed = folder.call(&mut Random::new(case), &["locate"], &operands, &[]);
        let answer = fault.map_or(Ok(()), |fault| Err(fault.refusal()));
        printed.compare(case, &answer, |()| 0);
        let position = fault.and_then(|fault| fault.position());
        let line = position.map(|position| format!("position {position}"));
        assert_eq!(printed.text().lines().nth(1), line.as_deref(), "case {case}");
        assert_eq!(position.is_some(), matches!(answer.map_err(Refusal::number), Err(15 | 16)));
        assert!(position.is_none_or(|position| position <= input.tree.len()), "case {case}");
        let second = reference::locate(&input.language, input.root, &input.tree);
        assert_eq!(position.unwrap_or(0) as u64, second.position, "case {case}");
        let (answer, number) = (answer.map(|()| 0), second.outcome.number());
        compare_explanation(&folder, case, "locate", &operands, &[], answer, number);
        placed += usize::from(position.is_some());
    }
    assert!(placed > 100, "{placed} with a position");
}

#[test]
fn reduce_and_list() {
    let folder = Folder::new("reduce");
    for case in 0..CASES {
        let random = &mut Random::new(case);
        let input = reduce_case(random);
        let (pack, limit) = (&input.pack, input.output.min(TRANSLATION_BYTES));
        let mut output = vec![0; limit];
        let answer = algebra::reduce(Pack(pack), &mut output);
        let limit = vec!["--limit".to_string(), input.output.to_string()];
        let result = answer.map(|length| &output[..length]);
        compare_result(&folder, case, "reduce", &[File(pack)], &limit, result);
        let mut workspace = vec![0; algebra::WORKSPACE_BYTES];
        let second = reference::reduce(pack, &mut workspace, &mut vec![0; input.output]).number();
        compare_explanation(&folder, case, "reduce", &[File(pack)], &limit, answer, second);
        compare_list(&folder, case, pack);
    }
}

/// Compares a listing with the library's answer, and all of it with the second implementation.
fn compare_list(folder: &Folder, case: u64, pack: &[u8]) {
    let answer = algebra::reduce_to_vec(Pack(pack));
    let printed = folder.call(&mut Random::new(case), &["list"], &[File(pack)], &[]);
    let first = match &answer {
        Ok(translation) => format!("accepted {}", translation.len()),
        Err(refusal) => format!("refused {}", refusal.number()),
    };
    assert_eq!(printed.text().lines().next(), Some(first.as_str()), "case {case}");
    assert_eq!(printed.status, u8::from(answer.is_err()), "case {case}");
    let listing = reference::listing::listing(pack);
    if listing.lines().next() == Some(first.as_str()) {
        assert_eq!(printed.text(), listing, "case {case}");
    }
}

/// Runs a translation by the command and compares all that it leaves with the library's answer.
fn compare_run(folder: &Folder, case: u64, input: &RunCase) {
    let RunCase { translation, root, number, tree, output: room } = input;
    let (root, number, room) = (*root, *number, *room);
    let mut output = vec![0; room];
    let (by_number, of_kind) = (MappingNumber(number), Kind(root));
    let answer =
        algebra::run(Translation(translation), of_kind, by_number, Tree(tree), &mut output);
    let limit = vec!["--limit".to_string(), room.to_string()];
    let kind = vec!["--as".to_string(), "translation".to_string()];
    let by = vec!["--number".to_string(), number.to_string()];
    let options = [limit, kind, if number == 0 { vec![] } else { by }].concat();
    let operands = [File(translation), Root(root), File(tree)];
    let result = answer.map(|run| &output[..run.length]);
    let cost = answer.map_or(String::new(), |run| format!("cost {}\n", run.cost));
    compare_with_figures(folder, case, "run", &operands, &options, result, &cost);
    let second = reference::run(translation, root, number, tree, &mut vec![0; room]).number();
    let length = answer.map(|run| run.length);
    compare_explanation(folder, case, "run", &operands, &options, length, second);
}

#[test]
fn run() {
    let folder = Folder::new("run");
    for case in 0..CASES {
        compare_run(&folder, case, &run_case(&mut Random::new(case)));
    }
    for case in 0..LONG_CASES {
        compare_run(&folder, case, &long_run_case(&mut Random::new(case)).case);
    }
}

#[test]
fn score() {
    let folder = Folder::new("score");
    for case in 0..CASES {
        let input = score_case(&mut Random::new(case));
        let (language, root, tree, table) =
            (&input.language, input.root, &input.tree, &input.table);
        let operands = [File(language), Root(root), File(tree), File(table)];
        let answer = algebra::score(Language(language), Kind(root), Tree(tree), LoadTable(table));
        let random = &mut Random::new(case);
        let printed = folder.call(random, &["score"], &operands, &[]);
        printed.compare(case, &answer, |score| *score);
        assert_eq!(printed.text().lines().count(), 1, "case {case}");
        let second = reference::score(language, root, tree, table).outcome.number();
        compare_explanation(&folder, case, "score", &operands, &[], answer, second);
    }
}

/// The scores of a loose plan, as they are printed.
#[derive(Clone, Copy)]
struct Between(LooseScore);

impl Display for Between {
    fn fmt(&self, formatter: &mut std::fmt::Formatter) -> std::fmt::Result {
        write!(formatter, "{} to {}", self.0.least, self.0.greatest)
    }
}

/// A loose plan made of the XML of a tree: most values are settled, and some plans are not legal.
fn loosened(random: &mut Random, text: &str) -> Vec<u8> {
    let mut plan = vec![];
    for part in text.split('<').skip(1) {
        let (tag, behind) = part.split_once('>').expect("a tag");
        if let Some((_, name)) = tag.strip_prefix('x').and_then(|tag| tag.split_once('.')) {
            plan.push(name.parse().expect("a name"));
        } else if tag.starts_with('t') {
            let value: u16 = behind.parse().expect("a value");
            let other = if random.percent(20) {
                random.below(2 * usize::from(value) + 2)
            } else {
                value.into()
            };
            plan.extend(value.min(other as u16).to_be_bytes());
            plan.extend(value.max(other as u16).to_be_bytes());
        }
    }
    plan
}

#[test]
fn score_loose() {
    let folder = Folder::new("loose");
    for case in 0..CASES {
        let random = &mut Random::new(case);
        let input = score_case(random);
        let (language, root, table) = (&input.language, input.root, &input.table);
        let tree = Tree(&input.tree);
        let text = algebra::export_to_vec(Language(language), Kind(root), tree, usize::MAX);
        let text = text.map(|text| String::from_utf8(text).expect("text"));
        let plan = text.map_or(input.tree.clone(), |text| loosened(random, &text));
        let operands = [File(language), Root(root), File(&plan), File(table)];
        let (in_language, of_kind, by) = (Language(language), Kind(root), LoadTable(table));
        let answer = algebra::score_loose(in_language, of_kind, LoosePlan(&plan), by).map(Between);
        let printed = folder.call(random, &["score-loose"], &operands, &[]);
        printed.compare(case, &answer, |scores| *scores);
        assert_eq!(printed.text().lines().count(), 1, "case {case}");
        let number = answer.err().map_or(0, Refusal::number);
        compare_explanation(&folder, case, "score-loose", &operands, &[], answer, number);
    }
}

#[test]
fn join_table() {
    let folder = Folder::new("join");
    for case in 0..CASES {
        let input = join_table_case(&mut Random::new(case));
        let (translation, table, room) = (&input.translation, &input.table, input.output);
        let operands = [File(translation), File(table)];
        let (mut output, options) = (vec![0; room], limit_options(room));
        let answer = algebra::join_table(Translation(translation), LoadTable(table), &mut output);
        let result = answer.map(|length| &output[..length]);
        compare_result(&folder, case, "join-table", &operands, &options, result);
        let second = reference::join_table(translation, table, &mut vec![0; room]).number();
        compare_explanation(&folder, case, "join-table", &operands, &options, answer, second);
    }
}

/// The options that lend an output of so many bytes.
fn limit_options(room: usize) -> Vec<String> {
    vec!["--limit".to_string(), room.to_string()]
}

#[test]
fn export() {
    let folder = Folder::new("export");
    for case in 0..CASES {
        let input = export_case(&mut Random::new(case));
        let (language, root, tree, room) = (&input.language, input.root, &input.tree, input.output);
        let operands = [File(language), Root(root), File(tree)];
        let (mut output, options) = (vec![0; room], limit_options(room));
        let answer = algebra::export(Language(language), Kind(root), Tree(tree), &mut output);
        let text = answer.map_or(OLD, |length| &output[..length]);
        let random = &mut Random::new(case);
        let printed = folder.call(random, &["export"], &operands, &options);
        printed.compare(case, &answer, |length| *length);
        let lines = answer.ok().map(|_| std::str::from_utf8(text).expect("text"));
        assert_eq!(printed.text().lines().nth(1), lines, "case {case}");
        let written = [folder.output_options(), options.clone()].concat();
        folder.call(random, &["export"], &operands, &written);
        assert_eq!(fs::read(folder.result()).expect("the file is there"), text, "case {case}");
        let second = reference::export(language, root, tree, &mut vec![0; room]).number();
        compare_explanation(&folder, case, "export", &operands, &options, answer, second);
    }
}

#[test]
fn import() {
    let folder = Folder::new("import");
    for case in 0..CASES {
        let input = import_case(&mut Random::new(case));
        let (language, root, text, room) = (&input.language, input.root, &input.text, input.output);
        let operands = [File(language), Root(root), Text(text)];
        let (mut output, options) = (vec![0; room], limit_options(room));
        let answer = algebra::import(Language(language), Kind(root), Xml(text), &mut output);
        let result = answer.map(|length| &output[..length]);
        compare_result(&folder, case, "import", &operands, &options, result);
        let second = reference::import(language, root, text, &mut vec![0; room]).number();
        compare_explanation(&folder, case, "import", &operands, &options, answer, second);
    }
}

/// Looks up a block by the command and compares all that it leaves with the library's answer.
fn compare_block(folder: &Folder, case: u64, operands: &[Operand], answer: Result<Block, Refusal>) {
    let random = &mut Random::new(case);
    let options = folder.output_options();
    let printed = folder.call(random, &["block"], operands, &options);
    printed.compare(case, &answer, |block| block.bytes.len());
    let figures = answer.map(|block| format!("kind {}, start {}", block.kind, block.start));
    assert_eq!(printed.text().lines().nth(1), figures.as_deref().ok(), "case {case}");
    let bytes = answer.map_or(OLD, |block| block.bytes);
    assert_eq!(folder.written(&printed), bytes, "case {case}");
    let printed = folder.call(random, &["block"], operands, &[]);
    let digits: Vec<&str> = printed.text().lines().skip(2).collect();
    let bytes = answer.map_or(&[][..], |block| block.bytes);
    assert_eq!(decoded(&digits.join("\n")).as_deref(), Some(bytes), "case {case}");
}

#[test]
fn block() {
    let folder = Folder::new("block");
    for case in 0..CASES {
        let input = block_case(&mut Random::new(case));
        let (language, root, tree, path) = (&input.language, input.root, &input.tree, &input.path);
        let operands = [File(language), Root(root), File(tree), Path(path)];
        let index = built_index(language, root, tree);
        let answer = looked_up(language, root, tree, &index, path);
        compare_block(&folder, case, &operands, answer);
        let number = answer.err().map_or(0, Refusal::number);
        let length = answer.map(|block| block.bytes.len());
        compare_explanation(&folder, case, "block", &operands, &[], length, number);
    }
}

/// The line that tells what stands at a path.
fn node_line(node: Node) -> String {
    match node {
        Node::Production { kind, name, arguments } => {
            format!("kind {kind}, name {name}, arguments {arguments}")
        }
        Node::Token { kind } => format!("kind {kind}, token"),
    }
}

#[test]
fn node() {
    let folder = Folder::new("node");
    let mut accepted = 0;
    for case in 0..CASES {
        let input = block_case(&mut Random::new(case));
        let (language, root, tree, path) = (&input.language, input.root, &input.tree, &input.path);
        let operands = [File(language), Root(root), File(tree), Path(path)];
        let index = built_index(language, root, tree);
        let (in_language, of_tree, by) = (Language(language), Tree(tree), Index(&index));
        let answer = algebra::node(in_language, Kind(root), of_tree, by, BlockPath(path));
        let printed = folder.call(&mut Random::new(case), &["node"], &operands, &[]);
        printed.compare(case, &answer, |_| 0);
        let line = answer.ok().map(node_line);
        assert_eq!(printed.text().lines().nth(1), line.as_deref(), "case {case}");
        assert_eq!(printed.text().lines().count(), 1 + answer.iter().len(), "case {case}");
        let second = reference::node(language, root, tree, &index, path);
        let found = answer.map_or((0, 0), |node| (node.kind().0, node.arguments() as u32));
        assert_eq!(found, (second.kind, second.arguments), "case {case}");
        let number = second.outcome.number();
        compare_explanation(&folder, case, "node", &operands, &[], answer.map(|_| 0), number);
        accepted += usize::from(answer.is_ok());
    }
    assert!(accepted > 100, "{accepted} accepted");
}

/// Start and length of each node of a plan are those of its index, and some nodes, of a long plan not
/// all, are what the library finds at their paths. Gives how many there are.
fn compare_nodes(case: u64, plan: &Plan) -> usize {
    let entries = plan.index().0.chunks(algebra::ENTRY_BYTES);
    let count = entries.len();
    assert_eq!(plan.nodes().len(), count, "case {case}");
    for (node, entry) in plan.nodes().zip(entries) {
        let numbers = [node.start(), node.bytes().len()].map(|number| number as u16);
        assert_eq!(numbers.map(u16::to_be_bytes).concat(), entry, "case {case}");
        assert_eq!(node.value().is_some(), node.node().name().is_none(), "case {case}");
    }
    for node in plan.nodes().step_by(1 + count / LOOKED_UP) {
        assert_eq!(plan.node(node.path()), Ok(node.node()), "case {case}");
        let block = plan.block(node.path()).expect("a block");
        assert_eq!((block.bytes, block.start), (node.bytes(), node.start()), "case {case}");
    }
    count
}

#[test]
fn nodes_of_plans() {
    let mut nodes = 0;
    for case in 0..CASES {
        let input = block_case(&mut Random::new(case));
        let (language, root, tree) = (Language(&input.language), Kind(input.root), &input.tree);
        let index = built_index(language.0, root.0, tree);
        let Ok(plan) = Plan::new(language, root, Tree(tree), Index(&index)) else { continue };
        nodes += compare_nodes(case, &plan);
    }
    assert!(nodes > 10_000, "{nodes} nodes");
}

#[test]
fn index() {
    let folder = Folder::new("index");
    for case in 0..CASES {
        let random = &mut Random::new(case);
        let input = block_case(random);
        let (language, root, tree) = (&input.language, input.root, &input.tree);
        let room = random.below(8 * tree.len() + 1);
        let operands = [File(language), Root(root), File(tree)];
        let (mut output, options) = (vec![0; room], limit_options(room));
        let answer = algebra::index(Language(language), Kind(root), Tree(tree), &mut output);
        let result = answer.map(|length| &output[..length]);
        compare_result(&folder, case, "index", &operands, &options, result);
        let number = answer.err().map_or(0, Refusal::number);
        compare_explanation(&folder, case, "index", &operands, &options, answer, number);
    }
}

/// Edits a plan by the command and compares all that it prints and writes with the library's answer.
fn compare_edit(
    folder: &Folder,
    case: u64,
    operands: &[Operand],
    answer: &Result<Edited, Refusal>,
) {
    let random = &mut Random::new(case);
    let printed = folder.call(random, &["edit"], operands, &[]);
    printed.compare(case, answer, |edited| edited.plan.len());
    let figures = answer.as_ref().ok().map(|edited| format!("index {}", edited.index.len()));
    assert_eq!(printed.text().lines().nth(1), figures.as_deref(), "case {case}");
    let digits: Vec<&str> = printed.text().lines().skip(2).collect();
    let plan = answer.as_ref().map_or(&[][..], |edited| &edited.plan);
    assert_eq!(decoded(&digits.join("\n")).as_deref(), Some(plan), "case {case}");
    let [_, file] = folder.output_options().try_into().expect("an option and its file");
    let options = ["--new-index".to_string(), file];
    let printed = folder.call(random, &["edit"], operands, &options);
    let index = answer.as_ref().map_or(OLD, |edited| &edited.index);
    assert_eq!(folder.written(&printed), index, "case {case}");
}

#[test]
fn edit() {
    let folder = Folder::new("edit");
    let (mut accepted, mut refused) = (0, 0);
    for case in 0..CASES {
        let random = &mut Random::new(case);
        let input = block_case(random);
        let (language, root, tree, path) = (&input.language, input.root, &input.tree, &input.path);
        let index = built_index(language, root, tree);
        let old = looked_up(language, root, tree, &index, path).map_or(&[][..], |of| of.bytes);
        let block = match random.below(4) {
            0 => tree,
            1 => &tree[random.below(tree.len() + 1)..],
            _ => old,
        };
        let operands = [File(language), Root(root), File(tree), Path(path), File(block)];
        let answer = edited(&input, &index, Card::ALL, block);
        compare_edit(&folder, case, &operands, &answer);
        let number = answer.as_ref().map_or_else(|refusal| refusal.number(), |_| 0);
        accepted += usize::from(number == 0);
        refused += usize::from(number != 0);
        let length = answer.map(|edited| edited.plan.len());
        compare_explanation(&folder, case, "edit", &operands, &[], length, number);
    }
    assert!(accepted > 100 && refused > 100, "{accepted} accepted, {refused} refused");
}

/// A card that shows each kind in half of the cases, or bytes that are none.
fn some_card(random: &mut Random) -> Vec<u8> {
    let kinds = (0..32).filter(|_| random.percent(50)).map(Kind);
    let mut card = algebra::card(kinds).expect("kinds that rise");
    if random.percent(20) {
        let place = random.below(card.len());
        card[place] = random.below(40) as u8;
    }
    card
}

#[test]
fn mask() {
    let folder = Folder::new("mask");
    for case in 0..CASES {
        let random = &mut Random::new(case);
        let (input, card) = (tree_case(random), some_card(random));
        let (language, root, tree) = (&input.language, input.root, &input.tree);
        let room = random.below(tree.len() + 2);
        let operands = [File(language), Root(root), File(tree), File(&card)];
        let (mut output, options) = (vec![0; room], limit_options(room));
        let (in_language, by) = (Language(language), Card(&card));
        let answer = algebra::mask(in_language, Kind(root), by, Tree(tree), &mut output);
        let result = answer.map(|length| &output[..length]);
        compare_result(&folder, case, "mask", &operands, &options, result);
        let number = answer.err().map_or(0, Refusal::number);
        compare_explanation(&folder, case, "mask", &operands, &options, answer, number);
    }
}

#[test]
fn edit_by_a_card() {
    let folder = Folder::new("card");
    for case in 0..CASES {
        let random = &mut Random::new(case);
        let (input, card) = (block_case(random), some_card(random));
        let (language, root, tree, path) = (&input.language, input.root, &input.tree, &input.path);
        let index = built_index(language, root, tree);
        let old = looked_up(language, root, tree, &index, path).map_or(&[][..], |of| of.bytes);
        let answer = edited(&input, &index, Card(&card), old);
        let (plan, by) = (File(tree), File(&card));
        let operands =
            [File(language), Root(root), plan, Path(path), File(old), Word("--card"), by];
        let printed = folder.call(random, &["edit"], &operands, &[]);
        printed.compare(case, &answer, |edited| edited.plan.len());
        let number = answer.as_ref().map_or_else(|refusal| refusal.number(), |_| 0);
        let length = answer.map(|edited| edited.plan.len());
        compare_explanation(&folder, case, "edit", &operands, &[], length, number);
    }
}

/// A number by which a translation maps a kind, and seldom one by which it does not.
fn some_number(random: &mut Random, translation: &[u8], kind: u8) -> u32 {
    let has = |number: &u32| mapped_kind(translation, kind.into(), *number).is_some();
    let numbers: Vec<u32> = (0..256).filter(has).collect();
    match numbers.is_empty() || random.percent(5) {
        true => random.below(300) as u32,
        false => random.pick(&numbers),
    }
}

#[test]
fn search() {
    let folder = Folder::new("search");
    let (mut found, mut none) = (0, 0);
    for case in 0..CASES {
        let random = &mut Random::new(case);
        let input = run_case(random);
        let (translation, root) = (&input.translation, input.root);
        let run = ran(translation, root, 0, &input.tree, LIMIT);
        let tree = run.map_or(input.tree, |ran| ran.tree);
        let (levels, room) = (random.below(18) as u32, random.below(2 * tree.len() + 8));
        let (mut output, limit) = (vec![0; room], limit_options(room));
        let (by, within) = (Translation(translation), Levels(levels));
        let answer = algebra::search(by, Kind(root), Tree(&tree), within, &mut output);
        let options = [limit, vec!["--as".to_string(), "translation".to_string()]].concat();
        let operands = [File(translation), Root(root), File(&tree), Root(levels)];
        let result = answer.map(|length| &output[..length]);
        compare_result(&folder, case, "search", &operands, &options, result);
        let number = answer.err().map_or(0, Refusal::number);
        compare_explanation(&folder, case, "search", &operands, &options, answer, number);
        if let Ok(length) = answer {
            let again = ran(translation, root, 0, &output[..length], tree.len());
            assert_eq!(again.map(|ran| ran.tree).as_ref(), Ok(&tree), "case {case}");
        }
        found += usize::from(answer.is_ok());
        none += usize::from(answer == Err(Refusal::NoSource));
    }
    assert!(found > 100 && none > 10, "{found} found, {none} without a source");
}

#[test]
fn search_without_levels() {
    let folder = Folder::new("least");
    let mut found = 0;
    for case in 0..CASES / 4 {
        let random = &mut Random::new(case);
        let input = run_case(random);
        let (translation, root) = (&input.translation, input.root);
        let run = ran(translation, root, 0, &input.tree, LIMIT);
        let tree = run.map_or(input.tree, |ran| ran.tree);
        let (by, of_kind) = (Translation(translation), Kind(root));
        let search =
            |levels| algebra::search_to_vec(by, of_kind, Tree(&tree), Levels(levels), LIMIT);
        let least = (1..16).find(|levels| search(*levels) != Err(Refusal::NoSource)).unwrap_or(16);
        let answer = search(least);
        let options = [limit_options(LIMIT), vec!["--as".to_string(), "translation".to_string()]];
        let operands = [File(translation), Root(root), File(&tree)];
        let (result, levels) = (answer.as_deref().map_err(|of| *of), format!("levels {least}\n"));
        let figures = if answer.is_ok() { &levels } else { "" };
        let options = options.concat();
        compare_with_figures(&folder, case, "search", &operands, &options, result, figures);
        let number = answer.as_ref().map_or_else(|refusal| refusal.number(), |_| 0);
        let length = answer.as_ref().map(Vec::len).map_err(|refusal| *refusal);
        compare_explanation(&folder, case, "search", &operands, &options, length, number);
        found += usize::from(answer.is_ok());
    }
    assert!(found > 20, "{found} found");
}

/// A pack with a term, or in half of the cases the translation that it reduces to, if it does.
fn pack_or_translation(random: &mut Random, pack: Vec<u8>) -> Vec<u8> {
    match random.percent(50).then(|| algebra::reduce_to_vec(Pack(&pack))) {
        Some(Ok(translation)) => translation,
        _ => pack,
    }
}

/// Compares a verb with what the library reduces a pack to; a language is that of an identity.
fn compare_verb(
    folder: &Folder,
    case: u64,
    verb: &str,
    operands: &[Operand],
    reduced: Result<&[u8], Refusal>,
) {
    match reduced {
        Ok(_) => compare_result(folder, case, verb, operands, &[], reduced),
        Err(_) => {
            let printed = folder.call(&mut Random::new(case), &[verb], operands, &[]);
            printed.compare(case, &reduced, |result| result.len());
            let files = printed.text().lines().nth(1).unwrap_or_default();
            assert!(files.starts_with("file"), "case {case}: {}", printed.text());
        }
    }
    let number = reduced.err().map_or(0, Refusal::number);
    let length = reduced.map(<[u8]>::len);
    compare_explanation(folder, case, verb, operands, &[], length, number);
}

#[test]
fn verbs_on_translations() {
    let folder = Folder::new("verbs");
    let (mut accepted, mut refused) = (0, 0);
    for case in 0..CASES / 2 {
        let random = &mut Random::new(case);
        let pack = law_pack(random);
        let of = |parts: &[&[u8]]| pack_with_term(&pack, &parts.concat());
        let terms = &pack.terms;
        let (f, g) = (&terms[0][..], &terms[terms.len() - 1][..]);
        let files = [of(&[f]), of(&[g])].map(|file| pack_or_translation(random, file));
        let [one, other] = &files;
        for (verb, term) in [
            ("join", of(&[&[0x54], f, g])),
            ("sum", of(&[&[0x53], f, g])),
            ("without", of(&[&[0x52], f, &[0x44], g])),
        ] {
            let answer = algebra::reduce_to_vec(Pack(&term));
            let result = answer.as_deref().map_err(|refusal| *refusal);
            compare_verb(&folder, case, verb, &[File(one), File(other)], result);
            accepted += usize::from(answer.is_ok());
            refused += usize::from(answer.is_err());
        }
        let identity = algebra::reduce_to_vec(Pack(&of(&[&[0x55, 0x44], f])));
        let result = identity.as_deref().map_err(|refusal| *refusal);
        compare_verb(&folder, case, "identity", &[File(one)], result);
        let source = result.map(|of| languages(of).expect("a translation").0);
        compare_verb(&folder, case, "source", &[File(one)], source);
        let target = algebra::reduce_to_vec(Pack(&of(&[&[0x55, 0x45], f])));
        let target = target.as_deref().map_err(|refusal| *refusal);
        let target = target.map(|of| languages(of).expect("a translation").0);
        compare_verb(&folder, case, "target", &[File(one)], target);
        compare_same(&folder, random, [one, other], [of(&[f]), of(&[g])], case);
    }
    assert!(accepted > 100 && refused > 100, "{accepted} accepted, {refused} refused");
}

/// Two files are the same if their packs reduce to the same bytes.
fn compare_same(
    folder: &Folder,
    random: &mut Random,
    [one, other]: [&[u8]; 2],
    packs: [Vec<u8>; 2],
    case: u64,
) {
    let printed = folder.call(random, &["same"], &[File(one), File(other)], &[]);
    let word = match packs.map(|pack| algebra::reduce_to_vec(Pack(&pack))) {
        [Ok(first), Ok(second)] if first == second => "same: ",
        [Ok(_), Ok(_)] => "different: ",
        _ => "refused ",
    };
    assert!(printed.text().starts_with(word), "case {case}: {}", printed.text());
    assert_eq!(printed.status, u8::from(word != "same: "), "case {case}");
}

#[test]
fn run_of_packs_and_steps() {
    let folder = Folder::new("steps");
    let (mut equal, mut refused, mut numbered) = (0, 0, 0);
    for case in 0..CASES {
        let random = &mut Random::new(case);
        let pack = law_pack(random);
        let mut term = || pack.terms[random.below(pack.terms.len())].clone();
        let pack = pack_with_term(&pack, &[vec![0x54], term(), term()].concat());
        let reduced = algebra::reduce_to_vec(Pack(&pack));
        let source = reduced.as_ref().map_or(&[][..], |translation| translation);
        let (kind, tree) = source_tree(random, source).unwrap_or_default();
        let (root, operands) = (u32::from(kind), [File(&pack), Root(kind.into()), File(&tree)]);
        let number = some_number(random, source, kind);
        let options = [["--limit", &LIMIT.to_string()], ["--number", &number.to_string()]];
        let options = options.concat().into_iter().map(str::to_string);
        let options: Vec<String> = options.take(if number == 0 { 2 } else { 4 }).collect();
        let answer = reduced.and_then(|of| ran(&of, root, number, &tree, LIMIT));
        let answer = answer.map(|ran| ran.tree);
        folder.call(random, &["run"], &operands, &options).compare(case, &answer, Vec::len);
        let xml = random.percent(50).then(|| "--xml".to_string());
        let options: Vec<String> = options.into_iter().chain(xml).collect();
        let printed = folder.call(random, &["steps"], &operands, &options);
        printed.compare(case, &answer, Vec::len);
        assert!(!printed.text().contains("DIFFERENT"), "case {case}: {}", printed.text());
        equal += usize::from(printed.text().contains("\nequal: "));
        refused += usize::from(answer.is_err());
        numbered += usize::from(answer.is_ok() && number != 0);
    }
    assert!(equal > 100 && refused > 100, "{equal} equal, {refused} refused");
    assert!(numbered > 20, "{numbered} by other numbers than 0");
}

#[test]
fn everything_that_is_not_broken_is_shown() {
    let folder = Folder::new("show");
    for case in 0..CASES {
        let random = &mut Random::new(case);
        let (file, pack) = (translation_file(random), reduce_case(random).pack);
        let language = language_file(random);
        for (kind, bytes, number) in [
            ("language", &language, reference::check_language(&language).number()),
            ("translation", &file, reference::check_translation(&file).number()),
            ("pack", &pack, algebra::reduce_to_vec(Pack(&pack)).err().map_or(0, Refusal::number)),
        ] {
            let options = ["--as".to_string(), kind.to_string()];
            let printed = folder.call(random, &["show"], &[File(bytes)], &options);
            assert_eq!(printed.status, u8::from(number != 0), "case {case}");
            let title = if number == 1 || number == 2 { "refused " } else { kind };
            assert!(printed.text().starts_with(title), "case {case}");
        }
    }
}
