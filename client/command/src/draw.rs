//! The verb draw: a session in the terminal, or as a picture.

use crate::arguments::Call;
use crate::files::{faulty, Plan};
use crate::job::kind;
use crate::output::write_file;
use crate::picture::{between, Leaf, Picture};
use crate::verbs::printed;
use crate::work::work;
use crate::{Failure, Printed, Streams, ACCEPTED};
use reference::plans;

/// The longest bar has so many columns.
const BAR: u64 = 48;
/// The colours of a terminal.
const COLOURS: [u8; 6] = [34, 31, 32, 33, 36, 35];

/// Draws a plan.
pub fn draw(call: &Call, streams: &mut Streams) -> Result<Printed, Failure> {
    let class = call.options.class.as_ref().map(|text| kind(call, "class", text)).transpose()?;
    let plan = Plan::load(call, streams)?;
    let task = || plan.with(|language, form| plans::read(language, plan.root, &plan.plan, form));
    let node = match work(plan.plan.len(), streams, task)? {
        Ok(node) => node,
        Err(fault) => return Ok(faulty(call, &fault)),
    };
    let picture = Picture::new(&node, &call.names, class.map(|kind| kind as u8));
    let Some(file) = &call.options.output else {
        let output = in_terminal(&picture, streams.colour).into_bytes();
        return Ok(Printed { output, ..Printed::default() });
    };
    let svg = picture.svg(&title(call, &picture));
    if file == "-" {
        return Ok(Printed { output: svg.into(), messages: String::new(), status: ACCEPTED });
    }
    write_file(file, svg.as_bytes())?;
    Ok(printed(Ok(svg.len()), ""))
}

/// What stands above a picture: the file, and the sum of its lengths.
fn title(call: &Call, picture: &Picture) -> String {
    let (least, greatest) = picture.total();
    let path = std::path::Path::new(&call.operands[2]);
    let name = path.file_name().map_or(String::new(), |name| name.display().to_string());
    format!("{name}: {}", between(least, greatest))
}

/// The plan as lines: a title for each block, and a bar for each leaf.
fn in_terminal(picture: &Picture, colour: bool) -> String {
    let indent = |depth: usize, label: &str| 2 * depth + label.chars().count();
    let column = picture.leaves.iter().map(|leaf| indent(leaf.depth, &leaf.label)).max();
    let most = picture.leaves.iter().map(|leaf| leaf.greatest).max().unwrap_or(0);
    let (column, mut blocks, mut text) =
        (column.unwrap_or(0), picture.blocks.iter().peekable(), String::new());
    for (place, leaf) in picture.leaves.iter().enumerate() {
        while let Some(block) = blocks.next_if(|block| block.first == place) {
            text.push_str(&format!("{}{}\n", "  ".repeat(block.depth), block.label));
        }
        let label = format!("{}{}", "  ".repeat(leaf.depth), leaf.label);
        let gap = " ".repeat(column.saturating_sub(label.chars().count()) + 2);
        let bar = bar(leaf, most);
        let bar = match colour && !leaf.hidden && !bar.is_empty() {
            true => {
                let colour = COLOURS[picture.colour(leaf) % COLOURS.len()];
                format!("\x1b[{colour}m{bar}\x1b[0m")
            }
            false => bar,
        };
        let line = format!("{label}{gap}{bar} {}", leaf.values);
        text.push_str(&format!("{}\n", line.trim_end()));
    }
    text
}

/// A bar as long as the tokens of a leaf: what is settled is solid, what may come besides is pale.
fn bar(leaf: &Leaf, most: u64) -> String {
    if leaf.hidden {
        return "▒▒▒".to_string();
    }
    let columns = |length: u64| match most > BAR {
        true => (length * BAR).div_ceil(most),
        false => length,
    };
    let (least, greatest) = (columns(leaf.least), columns(leaf.greatest));
    let part = |of: &str, count: u64| of.repeat(count as usize);
    format!("{}{}", part("█", least), part("░", greatest - least))
}
