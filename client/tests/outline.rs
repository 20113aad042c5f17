//! The example that prints an outline.

#[allow(dead_code)]
#[path = "../examples/outline.rs"]
mod example;

/// The outline of a tree of blocks in a language, both files of the examples, or the error.
fn outline(language: &str, tree: &str) -> Result<String, String> {
    let file = |name| format!("{}/../examples/{name}", env!("CARGO_MANIFEST_DIR"));
    let arguments = [file(language), "1".to_string(), file(tree)];
    example::outline(&arguments).map_err(|error| error.to_string())
}

#[test]
fn an_outline_has_a_line_for_each_node() {
    let lines = "\
production 1.5, bytes 0..9, path -
  kind 2: 1, bytes 1..3, path 1
  kind 2: 2, bytes 3..5, path 2
  kind 2: 3, bytes 5..7, path 3
  kind 2: 1, bytes 7..9, path 4
";
    assert_eq!(outline("pyramid/club.language", "pyramid/pyramid.tree").as_deref(), Ok(lines));
}

#[test]
fn a_fault_is_told_with_its_place() {
    let fault = Err("the tree is not legal, at byte 1".to_string());
    assert_eq!(outline("strap/strap.language", "strap/too_long.tree"), fault);
    assert!(example::outline(&[]).is_err());
}
