//! Pictures and pages are well-formed XML, read by a parser of its own; parts of a strip are as wide
//! as their tokens.

#[path = "../../../reference/tests/parser/mod.rs"]
mod parser;

use algebra_command::{command, Streams};
use parser::{parse, Element};
use std::ffi::OsString;
use std::path::PathBuf;

/// A file of the examples.
fn example(name: &str) -> String {
    let root = PathBuf::from(env!("CARGO_MANIFEST_DIR")).join("../../examples");
    root.join(name).display().to_string()
}

/// Calls the command, and gives its status, its output and its messages.
fn call(arguments: &[&str], colour: bool) -> (u8, String, String) {
    let arguments: Vec<OsString> = arguments.iter().map(OsString::from).collect();
    let (mut input, mut output, mut messages) = (std::io::empty(), vec![], vec![]);
    let mut streams = Streams {
        input: &mut input,
        output: &mut output,
        messages: &mut messages,
        terminal: false,
        colour,
    };
    let status = command(&arguments, &mut streams);
    let text = |bytes| String::from_utf8(bytes).expect("text");
    (status, text(output), text(messages))
}

/// All elements of a name in an element.
fn all<'a>(element: &'a Element, name: &str, list: &mut Vec<&'a Element>) {
    for child in element.children() {
        if child.name == name {
            list.push(child);
        }
        all(child, name, list);
    }
}

/// The picture of a plan, read by the parser.
fn picture(arguments: &[&str]) -> Element {
    let arguments = [&["draw"], arguments, &["-o", "-"]].concat();
    let (status, text, messages) = call(&arguments, false);
    assert_eq!((status, messages.as_str()), (0, ""));
    parse(&text).unwrap_or_else(|| panic!("{text}"))
}

#[test]
fn parts_are_as_wide_as_their_tokens() {
    let names = example("pyramid/names");
    let (language, tree) = (example("pyramid/club.language"), example("pyramid/session.tree"));
    let root = picture(&[&language, "block", &tree, "--names", &names]);
    let mut groups = vec![];
    all(&root, "g", &mut groups);
    let width = |group: &Element| -> f64 {
        let rectangle = group.children().into_iter().find(|child| child.name == "rect");
        let width = rectangle.and_then(|of| of.attribute("width")).expect("a width");
        width.parse().expect("a number")
    };
    let widths: Vec<f64> = groups.iter().map(|group| width(group)).collect();
    let expected = [10.0, 7.0, 5.0, 20.0].map(|minutes| minutes * 920.0 / 42.0);
    assert_eq!(widths.len(), expected.len());
    for (width, expected) in widths.iter().zip(expected) {
        assert!((width - expected).abs() < 0.1, "{widths:?}");
    }
    let text = root.text();
    for word in ["sequence", "pyramid: 7", "ladder: 20", "4, 6, 8, 2 minutes"] {
        assert!(text.contains(word), "{word}: {text}");
    }
}

#[test]
fn every_plan_has_a_picture() {
    let strap = example("strap/strap.language");
    for plan in ["regatta/eve.loose", "regatta/week.loose"] {
        picture(&[&strap, "1", &example(plan), "--as", "loose"]);
    }
    let (crew, card) = (example("cox/crew.language"), example("cox/cox.card"));
    let folder = std::env::temp_dir().join(format!("algebra-pictures-{}", std::process::id()));
    std::fs::create_dir_all(&folder).expect("a folder can be made");
    let masked = folder.join("evening.masked").display().to_string();
    let (status, ..) =
        call(&["mask", &crew, "1", &example("cox/evening.plan"), &card, "-o", &masked], false);
    assert_eq!(status, 0);
    let root = picture(&[&crew, "1", &masked, "--as", "masked", "--card", &card]);
    assert!(root.text().contains("hidden"));
    std::fs::remove_dir_all(folder).expect("the folder can be removed");
}

#[test]
fn colours_are_for_terminals() {
    let (language, tree) = (example("pyramid/club.language"), example("pyramid/session.tree"));
    let (_, plain, _) = call(&["draw", &language, "1", &tree], false);
    let (_, coloured, _) = call(&["draw", &language, "1", &tree], true);
    assert!(!plain.contains('\x1b') && coloured.contains("\x1b[34m"));
    let mut bare = coloured;
    for code in ["\x1b[0m", "\x1b[31m", "\x1b[32m", "\x1b[33m", "\x1b[34m", "\x1b[35m", "\x1b[36m"]
    {
        bare = bare.replace(code, "");
    }
    assert_eq!(bare, plain);
}

#[test]
fn a_page_of_steps_stands_by_itself() {
    let folder = std::env::temp_dir().join(format!("algebra-page-{}", std::process::id()));
    std::fs::create_dir_all(&folder).expect("a folder can be made");
    let (file, names) = (folder.join("steps.html"), example("pyramid/names"));
    let page = file.display().to_string();
    let (pack, tree) = (example("pyramid/plan.pack"), example("pyramid/ladder.tree"));
    let arguments = ["steps", &pack, "block", &tree, "--names", &names, "--html", &page];
    let (status, ..) = call(&arguments, false);
    assert_eq!(status, 0);
    let text = std::fs::read_to_string(&file).expect("the page is written");
    let body = text.strip_prefix("<!DOCTYPE html>\n").expect("a page");
    let root = parse(body).unwrap_or_else(|| panic!("{text}"));
    let (mut pictures, mut rows, words) = (vec![], vec![], root.text());
    all(&root, "svg", &mut pictures);
    all(&root, "tr", &mut rows);
    assert_eq!(pictures.len(), 4);
    // Three tables with a heading each; the steps apply 1 and 5 clauses, the join 1.
    assert!(rows.len() > 3, "{}", rows.len());
    for word in ["Its conditions hold here", "ladder(4, 6, 8, 2)", "Step 2 of 2", "Cost"] {
        assert!(words.contains(word), "{word}");
    }
    assert!(!text.contains("http:") || text.matches("http:").count() == pictures.len());
    std::fs::remove_dir_all(folder).expect("the folder can be removed");
}
