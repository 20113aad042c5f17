//! Trees: legal ones of a wanted height, and ones that are to be refused.

use super::damage::damage_bytes;
use super::heights::Heights;
use super::languages::{encoded, full_language, language, language_file, written};
use super::random::Random;
use super::ranges::{edge_value, legal_value};
use crate::language::{bit, Class, Language, Production, KINDS, LANGUAGE_LIMIT};
use crate::translation::read_translation;
use crate::tree::TREE_LEVELS;

/// The input of a check of a tree.
#[derive(Clone, Debug)]
pub struct TreeCase {
    pub language: Vec<u8>,
    pub root: u32,
    pub tree: Vec<u8>,
}

/// Grows trees of a language.
pub struct Grower<'a> {
    language: &'a Language,
    pub heights: Heights,
    /// Whether tokens may be one past their range or off its steps.
    pub wild: bool,
    /// About how many bytes may still be grown beside what must be there.
    pub budget: usize,
    /// The level of the node that is grown, and where the first one past the limit starts.
    level: usize,
    past: Option<usize>,
}

impl<'a> Grower<'a> {
    /// A grower of legal trees.
    pub fn new(language: &'a Language) -> Grower<'a> {
        let heights = Heights::new(language);
        Grower { language, heights, wild: false, budget: 0, level: 1, past: None }
    }

    /// The kinds that have a tree.
    pub fn grown_kinds(&self) -> Vec<u8> {
        (0..KINDS as u8).filter(|&kind| self.heights.least(kind).is_some()).collect()
    }

    /// Appends a tree of exactly that height, which the kind must have.
    pub fn grow(&mut self, random: &mut Random, kind: u8, height: usize, tree: &mut Vec<u8>) {
        let classes = &self.language.classes;
        if let Some(class) = classes.iter().find(|class| class.kind == kind) {
            let value = self.token(random, class);
            tree.extend_from_slice(&value.to_be_bytes());
            return;
        }
        if self.level > TREE_LEVELS && self.past.is_none() {
            self.past = Some(tree.len());
        }
        let production = self.production(random, kind, height);
        tree.push(production.name);
        self.budget = self.budget.saturating_sub(1);
        self.level += 1;
        self.grow_arguments(random, &production, height, tree);
        self.level -= 1;
    }

    /// Appends the arguments of a production, one of which reaches the height.
    fn grow_arguments(
        &mut self,
        random: &mut Random,
        production: &Production,
        height: usize,
        tree: &mut Vec<u8>,
    ) {
        let arguments = production.arguments();
        let reach = |number: &usize| self.heights.has(arguments[*number], height - 1);
        let reaching: Vec<usize> = (0..arguments.len()).filter(reach).collect();
        if reaching.is_empty() {
            return;
        }
        let spine = random.pick(&reaching);
        for (number, &argument) in arguments.iter().enumerate() {
            let below =
                if number == spine { height - 1 } else { self.low(random, argument, height - 1) };
            self.grow(random, argument, below, tree);
        }
    }

    /// A height for an argument beside the spine: least, or some height while there is budget.
    fn low(&self, random: &mut Random, kind: u8, limit: usize) -> usize {
        let least = self.heights.least(kind).expect("the kind has a tree");
        if self.budget == 0 || least >= limit {
            return least;
        }
        let wanted = random.within(least..=limit);
        self.heights.greatest(kind, wanted).expect("not below the least height")
    }

    /// A production of the kind that can have exactly that height.
    fn production(&self, random: &mut Random, kind: u8, height: usize) -> Production {
        let list = self.language.productions.iter();
        let fits = |p: &&Production| p.result == kind && self.heights.allows(p, height);
        let list: Vec<&Production> = list.filter(fits).collect();
        *random.pick(&list)
    }

    /// A legal value of the class, often its lowest or highest; a wild one may be one past it.
    fn token(&self, random: &mut Random, class: &Class) -> u16 {
        if self.wild && random.percent(15) {
            return edge_value(random, class);
        }
        legal_value(random, class)
    }
}

/// A height for a tree of the kind: mostly small, often about the limit of levels.
fn height(random: &mut Random, heights: &Heights, kind: u8) -> usize {
    let wanted = match random.below(10) {
        0 | 1 => TREE_LEVELS,
        2 | 3 => TREE_LEVELS + 1,
        4 => TREE_LEVELS - 1 + random.below(4),
        _ => random.within(1..=8),
    };
    let least = heights.least(kind).expect("the kind has a tree");
    heights.greatest(kind, wanted.max(least)).expect("not below the least height")
}

/// A tree of a kind that has one, legal but for its height and wild tokens.
pub fn tree_of(random: &mut Random, grower: &mut Grower, kind: u8) -> Vec<u8> {
    let mut tree = Vec::new();
    let height = height(random, &grower.heights, kind);
    grower.budget = if random.percent(70) { 20 } else { 400 };
    grower.past = None;
    grower.grow(random, kind, height, &mut tree);
    tree
}

/// Cuts or changes a tree just before or where it goes past the limit of levels.
fn damage_at_limit(random: &mut Random, place: usize, tree: &mut Vec<u8>) {
    match random.below(5) {
        0 | 1 => tree.truncate(place),
        2 => tree.truncate(place.saturating_sub(1)),
        3 => tree[place] = random.byte(),
        _ => tree[place - 1] = random.byte(),
    }
}

/// A root kind and a tree of it, sometimes damaged; any root and bytes if no kind has a tree.
pub fn root_and_tree(random: &mut Random, language: &Language) -> (u32, Vec<u8>) {
    let mut grower = Grower::new(language);
    grower.wild = random.percent(20);
    let grown = grower.grown_kinds();
    let root = root(random, language, &grown);
    let kind = if grown.contains(&(root as u8)) { root as u8 } else { random_kind(random, &grown) };
    if !grown.contains(&kind) {
        return (root, (0..random.below(6)).map(|_| random.byte()).collect());
    }
    let mut tree = tree_of(random, &mut grower, kind);
    match grower.past {
        Some(place) if random.percent(30) => damage_at_limit(random, place, &mut tree),
        _ => damage_tree(random, &mut tree),
    }
    (root, tree)
}

/// One of the kinds, or 0 if there are none.
fn random_kind(random: &mut Random, kinds: &[u8]) -> u8 {
    if kinds.is_empty() {
        0
    } else {
        random.pick(kinds)
    }
}

/// A root: mostly a kind with a tree, else an undefined kind, another kind or none.
fn root(random: &mut Random, language: &Language, grown: &[u8]) -> u32 {
    let kinds = language.kinds();
    let defined = language.class_kinds() | language.result_kinds();
    let undefined = (0..KINDS as u8).find(|&kind| kinds & !defined & bit(kind) != 0);
    match random.below(16) {
        0 => random.below(KINDS) as u32,
        1 => random.pick(&[31, 32, 33, 255, 256, 257, 65_536, u32::MAX, 1 << 31]),
        2 => u32::from(undefined.unwrap_or(random_kind(random, grown))),
        _ => u32::from(random_kind(random, grown)),
    }
}

/// Damages a tree in some cases: cut, changed, or with bytes behind it.
fn damage_tree(random: &mut Random, tree: &mut Vec<u8>) {
    match random.below(12) {
        0 => damage_bytes(random, tree),
        1 => tree.truncate(random.below(tree.len() + 1)),
        2 => tree.truncate(tree.len().saturating_sub(random.within(1..=4))),
        3 => tree.push(random.byte()),
        _ => {}
    }
}

/// Names of the productions of a chain: a leaf, links with tokens beside them, ends in a token,
/// and ends in an undefined kind.
const LEAF: u8 = 0;
const LINK: u8 = 1;
const LINK_BEFORE: u8 = 2;
const LINK_BEHIND: u8 = 3;
const END: u8 = 4;
const GAP: u8 = 5;
const GAP_BEHIND: u8 = 6;
const GAP_BEFORE: u8 = 7;

/// A value of the class of a chain.
const CHAIN_TOKEN: [u8; 2] = [0, 7];

/// A language for chains of one kind, and the kind.
pub fn chain_language(random: &mut Random) -> (Language, u8) {
    let first = random.below(KINDS - 2) as u8;
    let [kind, token, gap] = random.pick(&[
        [first, first + 1, first + 2],
        [first + 1, first, first + 2],
        [first + 2, first + 1, first],
    ]);
    let arguments: [&[u8]; 8] = [
        &[],
        &[kind],
        &[token, kind],
        &[kind, token],
        &[token],
        &[gap],
        &[token, gap],
        &[gap, token],
    ];
    let productions = (LEAF..).zip(arguments).map(|(name, of)| Production::new(kind, name, of));
    let classes = vec![Class::plain(token, 5, 9)];
    (Language { classes, productions: productions.collect() }, kind)
}

/// The last production of a chain with what is below it; it may be cut off or unknown.
fn chain_end(random: &mut Random) -> Vec<u8> {
    match random.below(12) {
        0 => vec![LEAF],
        1..=3 => vec![END, 0, 7],
        4 => vec![END, 0, random.pick(&[4, 5, 9, 10])],
        5 => vec![END, 0, 7][..random.within(0..=2)].to_vec(),
        6 => vec![GAP],
        7 => vec![GAP, random.byte()],
        8 => vec![GAP_BEHIND, 0, random.pick(&[7, 7, 10]), random.byte()],
        9 => vec![GAP_BEFORE, random.byte(), 0, 7],
        10 => vec![random.byte()],
        _ => vec![GAP_BEHIND, 0, 7],
    }
}

/// A chain of about 64 productions of a chain language.
pub fn chain_tree(random: &mut Random) -> Vec<u8> {
    let links = TREE_LEVELS - 3 + random.below(5);
    let alike = random.percent(50);
    (0..links).fold(chain_end(random), |below, _| {
        let link = if alike { LINK } else { random.pick(&[LINK, LINK_BEFORE, LINK_BEHIND]) };
        match link {
            LINK_BEFORE => [&[link], &CHAIN_TOKEN[..], &below].concat(),
            LINK_BEHIND => [&[link], &below[..], &CHAIN_TOKEN].concat(),
            _ => [&[link], &below[..]].concat(),
        }
    })
}

/// A check of a chain about the limit of levels.
fn chain_case(random: &mut Random) -> TreeCase {
    let (language, kind) = chain_language(random);
    let tree = chain_tree(random);
    TreeCase { language: encoded(&language), root: u32::from(kind), tree }
}

/// A language, a root and a tree; the language is seldom damaged.
pub fn tree_case(random: &mut Random) -> TreeCase {
    if random.percent(6) {
        return chain_case(random);
    }
    if random.percent(10) {
        let language = language_file(random);
        let tree = (0..random.below(6)).map(|_| random.byte()).collect();
        return TreeCase { language, root: random.below(34) as u32, tree };
    }
    let language = match random.below(40) {
        0 => full_language(random, LANGUAGE_LIMIT),
        1 => full_language(random, LANGUAGE_LIMIT + 1),
        _ => language(random),
    };
    let (root, tree) = root_and_tree(random, &language);
    TreeCase { language: written(random, &language), root, tree }
}

/// A root kind and a tree of a well-formed language, legal but for its height, if there is one.
pub fn legal_tree(random: &mut Random, language: &Language) -> Option<(u8, Vec<u8>)> {
    let mut grower = Grower::new(language);
    let grown = grower.grown_kinds();
    if grown.is_empty() {
        return None;
    }
    let kind = random.pick(&grown);
    Some((kind, tree_of(random, &mut grower, kind)))
}

/// A root kind and a tree of a translation's source, legal but for its height, if there is one.
pub fn source_tree(random: &mut Random, translation: &[u8]) -> Option<(u8, Vec<u8>)> {
    legal_tree(random, &read_translation(translation).ok()?.source)
}
