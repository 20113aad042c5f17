//! The search for a source tree whose run is a given target tree.
//!
//! Equal subtrees of the target are one node. Round by round, for one level more each time, it is
//! worked out from which kinds each node can be reached; then the tree is built from the root.

use crate::code::{symbols, Symbol};
use crate::grammar::Grammar;
use crate::language::{Language, ARGUMENTS, KINDS};
use crate::outcome::{require, Outcome, Refusal};
use crate::translation::{read_translation, Translation};
use crate::tree::{read_tree, root_kind, Nothing};
use std::collections::HashMap;

/// The most levels of a limit.
pub const MOST_LEVELS: usize = 16;
/// More levels than any limit: there is no tree.
const NONE: u8 = u8::MAX;

/// A subtree of the target: its kind, its name or token, and its arguments by number.
#[derive(Clone, Copy, Debug, PartialEq, Eq, Hash)]
struct Node {
    kind: u8,
    /// The name of a production, or the value of a token.
    value: u16,
    arguments: [u32; ARGUMENTS],
}

/// The different subtrees of a target tree.
struct Nodes<'a> {
    grammar: &'a Grammar<'a>,
    rest: &'a [u8],
    numbers: HashMap<Node, u32>,
    list: Vec<Node>,
}

impl Nodes<'_> {
    /// Reads the next tree, which is legal and of the kind, and gives its number.
    fn read(&mut self, kind: u8) -> u32 {
        let mut node = Node { kind, value: 0, arguments: [0; ARGUMENTS] };
        if self.grammar.class(kind).is_some() {
            let (value, rest) = self.rest.split_first_chunk().expect("a legal tree");
            (node.value, self.rest) = (u16::from_be_bytes(*value), rest);
            return self.number(node);
        }
        let (&name, rest) = self.rest.split_first().expect("a legal tree");
        (node.value, self.rest) = (u16::from(name), rest);
        let place = self.grammar.place(kind, name).expect("a legal tree");
        let arguments = self.grammar.production(place).arguments();
        for (number, &argument) in node.arguments.iter_mut().zip(arguments) {
            *number = self.read(argument);
        }
        self.number(node)
    }

    /// The number of a subtree, a new one if it was not met before.
    fn number(&mut self, node: Node) -> u32 {
        let next = self.list.len() as u32;
        let number = *self.numbers.entry(node).or_insert(next);
        if number == next {
            self.list.push(node);
        }
        number
    }
}

/// What the arguments of a clause must run to, by number; `None` if one is dropped.
type Uses = [Option<u32>; ARGUMENTS];

/// The first legal tree of a kind within some levels: its production, and its length.
#[derive(Clone, Copy)]
struct First {
    place: usize,
    length: u64,
}

/// For each number of levels and each kind the first legal tree, if there is one.
struct Firsts {
    levels: Vec<[Option<First>; KINDS]>,
}

impl Firsts {
    /// Works out the first trees of a language for each number of levels.
    fn new(language: &Language) -> Firsts {
        let mut first = [None; KINDS];
        for class in &language.classes {
            first[class.kind as usize] = Some(First { place: 0, length: 2 });
        }
        let mut levels = vec![first];
        for below in 0..MOST_LEVELS {
            let above = Firsts::above(language, &levels[below], first);
            levels.push(above);
        }
        Firsts { levels }
    }

    /// The first trees with one level more than those given; tokens stay as they are.
    fn above(
        language: &Language,
        below: &[Option<First>; KINDS],
        tokens: [Option<First>; KINDS],
    ) -> [Option<First>; KINDS] {
        let mut firsts = tokens;
        for (place, production) in language.productions.iter().enumerate() {
            let mut arguments = production.arguments().iter();
            let add = |sum: u64, &kind: &u8| Some(sum.saturating_add(below[kind as usize]?.length));
            let length = arguments.try_fold(1, add);
            let first = &mut firsts[production.result as usize];
            *first = first.or(length.map(|length| First { place, length }));
        }
        firsts
    }

    /// The first tree of a kind within so many levels.
    fn of(&self, kind: u8, levels: usize) -> Option<First> {
        self.levels[levels][kind as usize]
    }
}

/// A search: the translation, the subtrees of the target, and for each of them and each source kind
/// the least levels of a source tree that runs to it.
struct Search<'a> {
    translation: &'a Translation,
    nodes: Vec<Node>,
    codes: Vec<Vec<Symbol>>,
    /// The places of the productions whose results are mapped to each target kind.
    places: [Vec<usize>; KINDS],
    firsts: Firsts,
    least: Vec<[u8; KINDS]>,
}

impl<'a> Search<'a> {
    /// Prepares a search for the subtrees of a target tree.
    fn new(translation: &'a Translation, target: &Grammar, nodes: Vec<Node>) -> Search<'a> {
        let codes = translation.body.clauses.iter();
        let codes = codes.map(|clause| symbols(clause.code).collect()).collect();
        let mut places: [Vec<usize>; KINDS] = Default::default();
        for (place, production) in translation.source.productions.iter().enumerate() {
            places[translation.mapped(production.result) as usize].push(place);
        }
        let firsts = Firsts::new(&translation.source);
        let least = nodes.iter().map(|node| token_levels(translation, target, node)).collect();
        Search { translation, nodes, codes, places, firsts, least }
    }

    /// What the arguments of a clause must run to, if its code can become a subtree.
    fn uses(&self, place: usize, number: u32) -> Option<Uses> {
        let mut uses = [None; ARGUMENTS];
        let rest = self.match_code(&self.codes[place], number, &mut uses)?;
        debug_assert!(rest.is_empty());
        Some(uses)
    }

    /// Matches the first code in a list with a subtree, and gives the symbols behind it.
    fn match_code<'b>(
        &self,
        code: &'b [Symbol],
        number: u32,
        uses: &mut Uses,
    ) -> Option<&'b [Symbol]> {
        let (symbol, mut rest) = code.split_first().expect("a well-formed code");
        let node = &self.nodes[number as usize];
        match *symbol {
            Symbol::Token(value) => (node.value == value).then_some(rest),
            Symbol::Argument(argument, _) => {
                let used = uses[argument as usize].get_or_insert(number);
                (*used == number).then_some(rest)
            }
            Symbol::Production(name) if node.value == u16::from(name) => {
                for argument in 0..self.arguments(node) {
                    rest = self.match_code(rest, node.arguments[argument], uses)?;
                }
                Some(rest)
            }
            Symbol::Production(_) => None,
        }
    }

    /// How many arguments a production of the target has.
    fn arguments(&self, node: &Node) -> usize {
        let key = u16::from(node.kind) << 8 | node.value;
        let productions = &self.translation.target.productions;
        let place = productions.binary_search_by_key(&key, |production| production.key());
        place.map_or(0, |place| productions[place].arguments().len())
    }

    /// What the arguments of a clause must run to, if some source tree of that production within so
    /// many levels runs to a subtree.
    fn reaches(&self, place: usize, number: u32, levels: usize) -> Option<Uses> {
        let uses = self.uses(place, number)?;
        let arguments = self.translation.source.productions[place].arguments();
        let within = |(&kind, used): (&u8, &Option<u32>)| match used {
            Some(number) => usize::from(self.least[*number as usize][kind as usize]) < levels,
            None => self.firsts.of(kind, levels - 1).is_some(),
        };
        arguments.iter().zip(&uses).all(within).then_some(uses)
    }

    /// One round: what can be reached with so many levels and not with fewer.
    fn add_level(&mut self, levels: usize) {
        for number in 0..self.nodes.len() {
            self.least[number] = self.least_with(number as u32, levels);
        }
    }

    /// The least levels for a subtree and each kind, where so many levels are the most.
    fn least_with(&self, number: u32, levels: usize) -> [u8; KINDS] {
        let (node, mut least) = (number as usize, self.least[number as usize]);
        for &place in &self.places[self.nodes[node].kind as usize] {
            let result = self.translation.source.productions[place].result as usize;
            if least[result] == NONE && self.reaches(place, number, levels).is_some() {
                least[result] = levels as u8;
            }
        }
        least
    }

    /// The first production of a kind from which a subtree is reached within so many levels.
    fn choice(&self, kind: u8, number: u32, levels: usize) -> (usize, Uses) {
        let target = self.nodes[number as usize].kind;
        let mut places = self.places[target as usize]
            .iter()
            .filter(|&&place| self.translation.source.productions[place].result == kind);
        let found = places.find_map(|&place| Some((place, self.reaches(place, number, levels)?)));
        found.expect("the subtree is reached")
    }

    /// The length of the first tree of a kind within so many levels that runs to a subtree.
    fn length(&self, kind: u8, number: u32, levels: usize) -> u64 {
        if self.is_class(kind) {
            return 2;
        }
        let (place, uses) = self.choice(kind, number, levels);
        let arguments = self.translation.source.productions[place].arguments();
        arguments.iter().zip(uses).fold(1, |sum: u64, (&kind, used)| {
            sum.saturating_add(match used {
                Some(number) => self.length(kind, number, levels - 1),
                None => self.firsts.of(kind, levels - 1).map_or(0, |first| first.length),
            })
        })
    }

    /// Appends the first tree of a kind within so many levels that runs to a subtree.
    fn put(&self, kind: u8, number: u32, levels: usize, tree: &mut Vec<u8>) {
        if self.is_class(kind) {
            return tree.extend(self.nodes[number as usize].value.to_be_bytes());
        }
        let (place, uses) = self.choice(kind, number, levels);
        let production = &self.translation.source.productions[place];
        tree.push(production.name);
        for (&kind, used) in production.arguments().iter().zip(uses) {
            match used {
                Some(number) => self.put(kind, number, levels - 1, tree),
                None => self.put_first(kind, levels - 1, tree),
            }
        }
    }

    /// Appends the first legal tree of a kind within so many levels.
    fn put_first(&self, kind: u8, levels: usize, tree: &mut Vec<u8>) {
        let mut classes = self.translation.source.classes.iter();
        if let Some(class) = classes.find(|class| class.kind == kind) {
            return tree.extend(class.low.to_be_bytes());
        }
        let first = self.firsts.of(kind, levels).expect("a kind with a tree");
        let production = &self.translation.source.productions[first.place];
        tree.push(production.name);
        let arguments = production.arguments().iter();
        arguments.for_each(|&argument| self.put_first(argument, levels - 1, tree));
    }

    /// Whether a kind of the source is a class.
    fn is_class(&self, kind: u8) -> bool {
        self.translation.source.classes.iter().any(|class| class.kind == kind)
    }
}

/// No levels for the source classes in which a token of the target is legal, none for other kinds.
fn token_levels(translation: &Translation, target: &Grammar, node: &Node) -> [u8; KINDS] {
    let mut least = [NONE; KINDS];
    if target.class(node.kind).is_none() {
        return least;
    }
    for class in &translation.source.classes {
        if translation.mapped(class.kind) == node.kind && class.has(node.value) {
            least[class.kind as usize] = 0;
        }
    }
    least
}

/// Finds the first source tree of the root kind within the limit of levels that runs to a tree.
///
/// The workspace is all zero at the end where the answer is 0, 23 or 17, and as it was otherwise.
pub fn search(
    translation: &[u8],
    root: u32,
    tree: &[u8],
    limit: u32,
    workspace: &mut [u8],
    output: &mut [u8],
) -> Outcome {
    let given = accepted(translation, root, tree, limit);
    let found = given.and_then(|(translation, root)| {
        workspace.fill(0);
        write_found(&translation, root, tree, limit as usize, output)
    });
    found.into()
}

/// The tests of `search` in order up to the limit; the translation has no number but 0.
fn accepted(
    translation: &[u8],
    root: u32,
    tree: &[u8],
    limit: u32,
) -> Result<(Translation, u8), Refusal> {
    let translation = read_translation(translation)?;
    require(translation.body.is_plain(), Refusal::Number)?;
    let root = root_kind(&translation.source, root)?;
    let target = Grammar::new(&translation.target);
    read_tree(&target, translation.mapped(root), tree, Nothing, ())?;
    require((1..=MOST_LEVELS as u32).contains(&limit), Refusal::Limits)?;
    drop(target);
    Ok((translation, root))
}

/// A search for a legal tree from a root kind, worked out up to so many levels, and the number of the
/// whole tree.
fn sought<'a>(
    translation: &'a Translation,
    root: u8,
    tree: &[u8],
    levels: usize,
) -> (Search<'a>, u32) {
    let grammar = Grammar::new(&translation.target);
    let (numbers, list) = (HashMap::new(), Vec::new());
    let mut nodes = Nodes { grammar: &grammar, rest: tree, numbers, list };
    let whole = nodes.read(translation.mapped(root));
    let mut search = Search::new(translation, &grammar, nodes.list);
    (1..=levels).for_each(|levels| search.add_level(levels));
    (search, whole)
}

/// The least levels of a source tree of the root kind that runs to a legal tree, if there is one
/// within the most levels of a limit.
pub fn least_levels(translation: &Translation, root: u8, tree: &[u8]) -> Option<usize> {
    let (search, whole) = sought(translation, root, tree, MOST_LEVELS);
    let least = search.least[whole as usize][root as usize];
    (least != NONE).then_some(least.into())
}

/// The length of the first source tree within a limit that is not too low, or `u64::MAX` if it is
/// longer.
pub fn found_length(translation: &Translation, root: u8, tree: &[u8], limit: usize) -> u64 {
    let (search, whole) = sought(translation, root, tree, limit);
    search.length(root, whole, limit)
}

/// The first source tree, if there is one and the output is long enough.
fn write_found(
    translation: &Translation,
    root: u8,
    tree: &[u8],
    limit: usize,
    output: &mut [u8],
) -> Result<u64, Refusal> {
    let (search, whole) = sought(translation, root, tree, limit);
    let reached = search.least[whole as usize][root as usize] != NONE;
    require(reached, Refusal::NoSource)?;
    let length = search.length(root, whole, limit);
    require(length <= output.len() as u64, Refusal::Output)?;
    let mut found = Vec::with_capacity(length as usize);
    search.put(root, whole, limit, &mut found);
    debug_assert_eq!(found.len() as u64, length);
    output[..found.len()].copy_from_slice(&found);
    Ok(length)
}
