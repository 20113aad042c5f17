//! Pictures of plans: the leaves with their lengths, the blocks around them, and both as SVG.

use reference::names::Names;
use reference::plans::{Node, Sort};
use std::fmt::Write;

/// The colours of productions, in the order in which they come up.
const COLOURS: [&str; 10] = [
    "#4477aa", "#bb3355", "#228833", "#997700", "#117788", "#aa3377", "#775544", "#004488",
    "#666633", "#882255",
];
/// The width of the strip, and the space around it.
const STRIP: f64 = 920.0;
const MARGIN: f64 = 20.0;
/// The height of a box's title, and of the strip.
const ROW: f64 = 24.0;
const STRIP_HEIGHT: f64 = 56.0;
/// The width of a part that has no length, and of one that is hidden.
const NARROW: f64 = 6.0;
const HIDDEN: f64 = 44.0;
/// A character is about so wide.
const CHARACTER: f64 = 7.2;

/// What is drawn in one colour: a production, or a kind of tokens.
type Key = (u8, Option<u8>);

/// A leaf of a plan: a block without blocks in it, a token beside blocks, or a hidden block.
#[derive(Clone, Debug, PartialEq, Eq)]
pub struct Leaf {
    pub depth: usize,
    pub label: String,
    /// The values of its tokens, in words.
    pub values: String,
    pub least: u64,
    pub greatest: u64,
    pub hidden: bool,
    key: Key,
}

/// A block around others: where its leaves begin and end.
#[derive(Clone, Debug, PartialEq, Eq)]
pub struct Block {
    pub depth: usize,
    pub label: String,
    pub first: usize,
    pub end: usize,
}

/// A plan as leaves and the blocks around them, in reading order.
pub struct Picture<'a> {
    names: &'a Names,
    /// The class whose tokens count as length, if not all do.
    class: Option<u8>,
    pub leaves: Vec<Leaf>,
    pub blocks: Vec<Block>,
    keys: Vec<Key>,
}

/// Whether a node has no block in it.
fn is_leaf(node: &Node) -> bool {
    node.arguments.iter().all(|argument| matches!(argument.sort, Sort::Token(..)))
}

/// A text as it stands in XML.
pub fn escaped(text: &str) -> String {
    text.replace('&', "&amp;").replace('<', "&lt;").replace('>', "&gt;").replace('"', "&quot;")
}

impl<'a> Picture<'a> {
    /// The picture of a plan.
    pub fn new(node: &Node, names: &'a Names, class: Option<u8>) -> Picture<'a> {
        let mut picture = Picture { names, class, leaves: vec![], blocks: vec![], keys: vec![] };
        picture.add(node, 0);
        picture
    }

    /// Adds a node at a depth.
    fn add(&mut self, node: &Node, depth: usize) {
        if is_leaf(node) {
            let leaf = self.leaf(node, depth);
            if !leaf.hidden && !self.keys.contains(&leaf.key) {
                self.keys.push(leaf.key);
            }
            self.leaves.push(leaf);
            return;
        }
        let (place, first) = (self.blocks.len(), self.leaves.len());
        let label = self.label(node);
        self.blocks.push(Block { depth, label, first, end: first });
        node.arguments.iter().for_each(|argument| self.add(argument, depth + 1));
        self.blocks[place].end = self.leaves.len();
    }

    /// What a node is called.
    fn label(&self, node: &Node) -> String {
        match node.sort {
            Sort::Production(name) => self.names.production(node.kind, name),
            _ => self.names.kind(node.kind),
        }
    }

    /// A node without blocks in it.
    fn leaf(&self, node: &Node, depth: usize) -> Leaf {
        let tokens: Vec<&Node> = match node.sort {
            Sort::Token(..) => vec![node],
            _ => node.arguments.iter().collect(),
        };
        let name = match node.sort {
            Sort::Production(name) => Some(name),
            _ => None,
        };
        let (least, greatest) = self.lengths(&tokens);
        let hidden = node.sort == Sort::Hidden;
        let values = if hidden { "hidden".to_string() } else { self.values(&tokens) };
        Leaf {
            depth,
            label: self.label(node),
            values,
            least,
            greatest,
            hidden,
            key: (node.kind, name),
        }
    }

    /// The least and the greatest length of some tokens.
    fn lengths(&self, tokens: &[&Node]) -> (u64, u64) {
        let counted =
            tokens.iter().filter(|token| self.class.is_none_or(|kind| kind == token.kind));
        counted.fold((0, 0), |(least, greatest), token| match token.sort {
            Sort::Token(low, high) => (least + u64::from(low), greatest + u64::from(high)),
            _ => (least, greatest),
        })
    }

    /// The values of some tokens, with the word of their kind if there is one for all.
    fn values(&self, tokens: &[&Node]) -> String {
        let texts = tokens.iter().filter_map(|token| match token.sort {
            Sort::Token(low, high) if low == high => Some(low.to_string()),
            Sort::Token(low, high) => Some(format!("{low} to {high}")),
            _ => None,
        });
        let text = texts.collect::<Vec<_>>().join(", ");
        let kind = tokens.first().map(|token| token.kind);
        let alike = tokens.iter().all(|token| Some(token.kind) == kind);
        match kind.map(|kind| self.names.kind(kind)) {
            Some(word) if alike && !word.starts_with(|c: char| c.is_ascii_digit()) => {
                format!("{text} {word}")
            }
            _ => text,
        }
    }

    /// The place of a leaf's colour.
    pub fn colour(&self, leaf: &Leaf) -> usize {
        self.keys.iter().position(|key| *key == leaf.key).unwrap_or(0)
    }

    /// The sum of all lengths.
    pub fn total(&self) -> (u64, u64) {
        let sum = |of: fn(&Leaf) -> u64| self.leaves.iter().map(of).sum();
        (sum(|leaf| leaf.least), sum(|leaf| leaf.greatest))
    }

    /// Where each leaf begins in the strip, and last where it ends.
    fn edges(&self) -> Vec<f64> {
        let fixed = |leaf: &Leaf| match (leaf.hidden, leaf.greatest) {
            (true, _) => HIDDEN,
            (false, 0) => NARROW,
            _ => 0.0,
        };
        let taken: f64 = self.leaves.iter().map(fixed).sum();
        let total = self.total().1.max(1) as f64;
        let scale = (STRIP - taken).max(STRIP / 4.0) / total;
        let mut edges = vec![MARGIN];
        for leaf in &self.leaves {
            let last = edges[edges.len() - 1];
            edges.push(last + fixed(leaf) + leaf.greatest as f64 * scale);
        }
        edges
    }

    /// The picture as SVG, with a title.
    pub fn svg(&self, title: &str) -> String {
        let (edges, deepest) =
            (self.edges(), self.blocks.iter().map(|block| block.depth + 1).max());
        let top = 44.0;
        let strip = top + ROW * deepest.unwrap_or(0) as f64 + 8.0;
        let legend = strip + STRIP_HEIGHT + 34.0;
        let width = edges[edges.len() - 1] + MARGIN;
        let entries = self.keys.len() + usize::from(self.has_hidden());
        let height = legend + 22.0 * entries as f64 + 10.0;
        let mut text = format!(
            "<svg xmlns=\"http://www.w3.org/2000/svg\" width=\"{width:.0}\" height=\"{height:.0}\" \
             viewBox=\"0 0 {width:.0} {height:.0}\" font-family=\"sans-serif\" font-size=\"13\">\n"
        );
        text.push_str(
            "<defs><pattern id=\"hidden\" width=\"8\" height=\"8\" \
                       patternUnits=\"userSpaceOnUse\" patternTransform=\"rotate(45)\">\
                       <rect width=\"8\" height=\"8\" fill=\"#dddddd\"/>\
                       <rect width=\"3\" height=\"8\" fill=\"#999999\"/></pattern></defs>\n",
        );
        let _ = writeln!(text, "<title>{}</title>", escaped(title));
        let _ = writeln!(
            text,
            "<text x=\"{MARGIN}\" y=\"24\" font-size=\"16\">{}</text>",
            escaped(title)
        );
        self.put_blocks(&edges, top, strip, &mut text);
        self.put_strip(&edges, strip, &mut text);
        self.put_legend(legend, &mut text);
        text.push_str("</svg>\n");
        text
    }

    /// Appends the boxes of the blocks, each around those inside it.
    fn put_blocks(&self, edges: &[f64], top: f64, strip: f64, text: &mut String) {
        for block in &self.blocks {
            let inset = 2.0 * block.depth as f64;
            let x = edges[block.first] + inset.min(6.0) / 3.0;
            let width = (edges[block.end] - x - inset.min(6.0) / 3.0).max(1.0);
            let y = top + ROW * block.depth as f64;
            let height = strip + STRIP_HEIGHT + 14.0 - inset.min(12.0) - y;
            let shade = 250 - 9 * block.depth.min(9);
            let _ = writeln!(
                text,
                "<rect x=\"{x:.1}\" y=\"{y:.1}\" width=\"{width:.1}\" height=\"{height:.1}\" \
                 rx=\"3\" fill=\"rgb({shade},{shade},{shade})\" stroke=\"#777777\"/>"
            );
            put_label(&block.label, x + 5.0, y + 16.0, width - 8.0, "#222222", text);
        }
    }

    /// Appends the strip, whose parts are as wide as their tokens; what is not settled is pale.
    fn put_strip(&self, edges: &[f64], y: f64, text: &mut String) {
        for (place, leaf) in self.leaves.iter().enumerate() {
            let (x, width) = (edges[place], edges[place + 1] - edges[place]);
            let fill = match leaf.hidden {
                true => "url(#hidden)",
                false => COLOURS[self.colour(leaf) % COLOURS.len()],
            };
            let part = |width: f64, opacity: &str| {
                format!(
                    "<rect x=\"{x:.1}\" y=\"{y:.1}\" width=\"{width:.1}\" \
                     height=\"{STRIP_HEIGHT}\" fill=\"{fill}\"{opacity} stroke=\"#ffffff\"/>"
                )
            };
            let told = format!("{}: {}", leaf.label, leaf.values);
            let _ = writeln!(text, "<g><title>{}</title>", escaped(&told));
            if leaf.least < leaf.greatest {
                let _ = writeln!(text, "{}", part(width, " fill-opacity=\"0.4\""));
            }
            let settled = match leaf.greatest {
                0 => width,
                greatest => width * leaf.least as f64 / greatest as f64,
            };
            let _ = writeln!(text, "{}", part(settled, ""));
            let ink = if leaf.hidden { "#222222" } else { "#ffffff" };
            put_label(&leaf.label, x + 4.0, y + 22.0, width - 6.0, ink, text);
            put_label(&leaf.values, x + 4.0, y + 42.0, width - 6.0, ink, text);
            text.push_str("</g>\n");
        }
    }

    /// Whether a block is hidden.
    fn has_hidden(&self) -> bool {
        self.leaves.iter().any(|leaf| leaf.hidden)
    }

    /// Appends what each colour stands for, and how long it is in all.
    fn put_legend(&self, top: f64, text: &mut String) {
        for (place, key) in self.keys.iter().enumerate() {
            let of: Vec<&Leaf> = self.leaves.iter().filter(|leaf| leaf.key == *key).collect();
            let label = of.first().map_or("", |leaf| &leaf.label);
            let least = of.iter().map(|leaf| leaf.least).sum();
            let greatest = of.iter().map(|leaf| leaf.greatest).sum();
            let told = format!("{label}: {}", between(least, greatest));
            put_entry(&told, COLOURS[place % COLOURS.len()], top + 22.0 * place as f64, text);
        }
        if self.has_hidden() {
            put_entry("hidden", "url(#hidden)", top + 22.0 * self.keys.len() as f64, text);
        }
    }
}

/// Appends an entry of the legend.
fn put_entry(told: &str, fill: &str, y: f64, text: &mut String) {
    let _ = writeln!(
        text,
        "<rect x=\"{MARGIN}\" y=\"{y:.1}\" width=\"14\" height=\"14\" fill=\"{fill}\"/>"
    );
    let (x, y) = (MARGIN + 22.0, y + 12.0);
    let _ = writeln!(text, "<text x=\"{x:.1}\" y=\"{y:.1}\">{}</text>", escaped(told));
}

/// One figure, or two where they differ.
pub fn between(least: u64, greatest: u64) -> String {
    match least == greatest {
        true => least.to_string(),
        false => format!("{least} to {greatest}"),
    }
}

/// Appends a label where there is room for it.
fn put_label(label: &str, x: f64, y: f64, room: f64, ink: &str, text: &mut String) {
    if label.chars().count() as f64 * CHARACTER <= room {
        let label = escaped(label);
        let _ = writeln!(text, "<text x=\"{x:.1}\" y=\"{y:.1}\" fill=\"{ink}\">{label}</text>");
    }
}
