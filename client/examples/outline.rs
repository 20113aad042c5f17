//! Prints the outline of a plan, as an editor shows it: for each node the bytes of the plan that are
//! its own, its path, and what it is; or the byte at which the plan is at fault.
//!
//! ```sh
//! cargo run --offline --package algebra --example outline -- LANGUAGE ROOT TREE
//! ```

use algebra::{index_to_vec, locate, Index, Kind, Language, Plan, PlanNode, Refusal, Tree};
use std::error::Error;
use std::process::ExitCode;
use std::{env, fs};

fn main() -> ExitCode {
    match outline(&env::args().skip(1).collect::<Vec<_>>()) {
        Ok(text) => {
            print!("{text}");
            ExitCode::SUCCESS
        }
        Err(error) => {
            eprintln!("{error}");
            ExitCode::FAILURE
        }
    }
}

/// The outline for the arguments of the program.
pub fn outline(arguments: &[String]) -> Result<String, Box<dyn Error>> {
    let [language, root, tree] = arguments else { return Err("LANGUAGE ROOT TREE".into()) };
    let (language, root, tree) = (fs::read(language)?, Kind(root.parse()?), fs::read(tree)?);
    if let Some(fault) = locate(Language(&language), root, Tree(&tree)) {
        return Err(fault.into());
    }
    Ok(lines(Language(&language), root, Tree(&tree))?)
}

/// A line for each node of a tree.
fn lines(language: Language, root: Kind, tree: Tree) -> Result<String, Refusal> {
    let index = index_to_vec(language, root, tree)?;
    let plan = Plan::new(language, root, tree, Index(&index))?;
    Ok(plan.nodes().map(|node| line(&node)).collect())
}

/// The line of a node.
fn line(node: &PlanNode) -> String {
    let (indent, kind) = ("  ".repeat(node.depth()), node.kind());
    let what = match (node.node().name(), node.value()) {
        (Some(name), _) => format!("production {kind}.{name}"),
        (None, value) => format!("kind {kind}: {}", value.unwrap_or_default()),
    };
    format!("{indent}{what}, bytes {:?}, path {}\n", node.range(), path(node))
}

/// The path of a node, with points; `-` leads to the whole tree.
fn path(node: &PlanNode) -> String {
    let numbers: Vec<String> = node.path().0.iter().map(u8::to_string).collect();
    if numbers.is_empty() {
        "-".to_string()
    } else {
        numbers.join(".")
    }
}
