//! The notation: whatever can be shown comes back byte for byte, on all examples and on generated
//! files, with names and without.

use reference::explain::Fault;
use reference::generate::{
    index_case, language_file, loose_case, mask_case, reduce_case, score_case, translation_file,
    tree_case, Random,
};
use reference::names::Names;
use reference::notation::{assemble, dump, seen, Source};
use reference::plans::Form;
use std::path::{Path, PathBuf};

/// So many files of each of nine sorts are generated, and of packs twice as many.
const CASES: u64 = 10_000;

/// A word for each kind and for many productions.
fn all_names() -> Names {
    let kinds = (0..32).map(|kind| format!("{kind} kind{kind}\n"));
    let productions = (0..32).flat_map(|kind| {
        (0..=255).step_by(1 + kind % 3).map(move |name| format!("{kind}.{name} p{kind}-{name}\n"))
    });
    let mut names = Names::default();
    let text: String = kinds.chain(productions).collect();
    names.add(&text).expect("the lines are right");
    names
}

/// Asks that a file comes back, if it can be shown; gives whether it can.
fn comes_back(source: Source, file: &[u8], names: &Names, case: &str) -> bool {
    let text = match dump(source, names) {
        Ok(text) => text,
        Err(Fault { .. }) => return false,
    };
    let back = assemble(&text, names).unwrap_or_else(|misread| panic!("{case}: {misread}\n{text}"));
    assert!(back == file, "{case}\n{text}");
    true
}

/// Generates files of one sort, half of them with names, and asks that many can be shown.
fn generated(sort: &str, mut one: impl FnMut(&mut Random, &Names, &str) -> bool) {
    let names = [Names::default(), all_names()];
    let mut shown = 0;
    for case in 0..CASES {
        let mut random = Random::new(0xA0 + case);
        let with = &names[(case % 2) as usize];
        shown += u64::from(one(&mut random, with, &format!("{sort} {case}")));
    }
    assert!(shown > CASES / 4, "only {shown} of {CASES} files were shown: {sort}");
}

#[test]
fn languages_come_back() {
    generated("language", |random, names, case| {
        let file = language_file(random);
        comes_back(Source::Language(&file), &file, names, case)
    });
}

#[test]
fn translations_come_back() {
    generated("translation", |random, names, case| {
        let file = translation_file(random);
        comes_back(Source::Translation(&file), &file, names, case)
    });
}

#[test]
fn packs_come_back() {
    generated("pack", |random, names, case| {
        let files = [reduce_case(random).pack, reduce_case(random).pack];
        let back = files.map(|file| comes_back(Source::Pack(&file), &file, names, case));
        back.contains(&true)
    });
}

#[test]
fn tables_come_back() {
    generated("table", |random, names, case| {
        let file = score_case(random).table;
        comes_back(Source::Table(&file), &file, names, case)
    });
}

#[test]
fn cards_come_back() {
    generated("card", |random, names, case| {
        let file = mask_case(random).card;
        comes_back(Source::Card(&file), &file, names, case)
    });
}

#[test]
fn trees_come_back() {
    generated("tree", |random, names, case| {
        let input = tree_case(random);
        let (language, root, plan) = (&input.language[..], input.root, &input.tree[..]);
        let source = Source::Plan { language, root, plan, form: Form::Settled };
        comes_back(source, plan, names, case)
    });
}

#[test]
fn loose_plans_come_back() {
    generated("loose plan", |random, names, case| {
        let input = loose_case(random);
        let (language, root, plan) = (&input.language[..], input.root, &input.tree[..]);
        let source = Source::Plan { language, root, plan, form: Form::Loose };
        comes_back(source, plan, names, case)
    });
}

#[test]
fn masked_plans_come_back() {
    generated("masked plan", |random, names, case| {
        let input = mask_case(random);
        let mut plan = vec![0; input.tree.len()];
        let outcome =
            reference::mask(&input.language, input.root, &input.card, &input.tree, &mut plan);
        plan.truncate(outcome.length() as usize);
        let Ok(kinds) = seen(&input.card) else { return false };
        if outcome.number() != 0 {
            return false;
        }
        let (language, root) = (&input.language[..], input.root);
        let source = Source::Plan { language, root, plan: &plan, form: Form::Masked(kinds) };
        assert!(comes_back(source, &plan, names, case), "{case}");
        true
    });
}

#[test]
fn indexes_come_back() {
    generated("index", |random, names, case| {
        let input = index_case(random);
        let mut index = vec![0; 4 * input.tree.len() + 4];
        let outcome = reference::index(&input.language, input.root, &input.tree, &mut index);
        index.truncate(outcome.length() as usize + (index.len() % 3));
        comes_back(Source::Index(&index), &index, names, case)
    });
}

/// The example files with an ending, in all folders.
fn examples(ending: &str) -> Vec<PathBuf> {
    let root = Path::new(env!("CARGO_MANIFEST_DIR")).join("../examples");
    let folders = std::fs::read_dir(&root).expect("examples").map(|entry| entry.expect("an entry"));
    let folders = folders.map(|entry| entry.path()).filter(|path| path.is_dir());
    let files = folders.chain([root]).flat_map(|folder| {
        std::fs::read_dir(folder).expect("a folder").map(|entry| entry.expect("an entry").path())
    });
    files.filter(|path| path.extension().is_some_and(|found| found == ending)).collect()
}

/// The names of the folder of an example, if it has some.
fn names_of(path: &Path) -> Names {
    let mut names = Names::default();
    if let Ok(text) = std::fs::read_to_string(path.with_file_name("names")) {
        names.add(&text).expect("the names of an example");
    }
    names
}

#[test]
fn examples_come_back() {
    type Sort = fn(&[u8]) -> Source;
    let sorts: [(&str, Sort); 6] = [
        ("language", |file| Source::Language(file)),
        ("translation", |file| Source::Translation(file)),
        ("pack", |file| Source::Pack(file)),
        ("table", |file| Source::Table(file)),
        ("card", |file| Source::Card(file)),
        ("index", |file| Source::Index(file)),
    ];
    let mut count = 0;
    for (ending, source) in sorts {
        for path in examples(ending) {
            let file = std::fs::read(&path).expect("a file");
            for names in [Names::default(), names_of(&path)] {
                let case = path.display().to_string();
                assert!(comes_back(source(&file), &file, &names, &case), "{case}");
                count += 1;
            }
        }
    }
    assert!(count > 40, "{count}");
}

/// What is said of a text that is wrong.
fn misread(text: &str) -> String {
    let mut names = Names::default();
    names.add("1 block\n2 minutes\n1.1 row\n1.4 twice\n").expect("names");
    assemble(text, &names).expect_err(text).to_string()
}

#[test]
fn what_is_wrong_is_told_with_its_place() {
    let sorts = "language, translation, pack, table, card, tree, loose, masked or index";
    for (text, what) in [
        (
            "",
            format!("line 1, column 1: {sorts} was expected, and the end of the text stands here"),
        ),
        ("plan", format!("line 1, column 1: {sorts} was expected, and plan stands here")),
        (
            "language\n  class 2: 1 240",
            "line 2, column 14: to was expected, and 240 stands here".to_string(),
        ),
        (
            "language\n  class 32: 1 to 2",
            "line 2, column 9: a kind from 0 to 31 was expected, and 32 stands here".to_string(),
        ),
        (
            "language\n  production 1.4 (1",
            "line 2, column 20: a kind was expected, and the end of the text stands here"
                .to_string(),
        ),
        (
            "language\n  class minuets: 1 to 2",
            "line 2, column 9: minuets names no kind; minutes is near to it".to_string(),
        ),
        (
            "tree block\n  twise(row(5))",
            "line 2, column 3: twise names no production; twice is near to it".to_string(),
        ),
        (
            "tree 1\n  1.4(1.1(70000))",
            "line 2, column 11: a value from 0 to 65535 was expected, and 70000 stands here"
                .to_string(),
        ),
        (
            "tree 1\n  1.1(5) 1.1(6)",
            "line 2, column 10: the end of the line was expected, and 1.1 stands here".to_string(),
        ),
        (
            "pack\n  body 1\n",
            "line 2, column 8: the number of a body, from 0 to 0 was expected, and 1 stands here"
                .to_string(),
        ),
        (
            "pack\n  term\n    identity(w0)",
            "line 3, column 14: a language term was expected, and w0 stands here".to_string(),
        ),
        (
            "card\n  kind 1 kind 2",
            "line 2, column 10: the end of the line was expected, and kind stands here".to_string(),
        ),
        (
            "card\nkind 1\nseen 2",
            "line 3, column 1: nothing more was expected, and seen stands here".to_string(),
        ),
        ("card;", "line 1, column 5: ';' is no part of the notation".to_string()),
    ] {
        assert_eq!(misread(text), what, "{text}");
    }
}
