//! Lookups of blocks: paths that lead to a block at any level, and paths that go wrong at some
//! place.

use super::indexes::{index_for, indexed_tree_case, is_legal};
use super::random::Random;
use super::trees::TreeCase;
use crate::block::Place;
use crate::grammar::Grammar;
use crate::language::read_language;

/// The input of a lookup.
#[derive(Clone, Debug)]
pub struct BlockCase {
    pub language: Vec<u8>,
    pub root: u32,
    pub tree: Vec<u8>,
    pub index: Vec<u8>,
    pub path: Vec<u8>,
}

/// A path in a legal tree, and how many arguments there are at its end.
struct Walk {
    path: Vec<u8>,
    arguments: usize,
}

/// The number of an argument: often that of one with arguments of its own, the first or the last.
fn number(random: &mut Random, grammar: &Grammar, arguments: &[u8]) -> u8 {
    let numbers = 1..=arguments.len() as u8;
    let inner = |&number: &u8| grammar.class(arguments[usize::from(number) - 1]).is_none();
    let inner: Vec<u8> = numbers.filter(inner).collect();
    match random.below(8) {
        0 => 1,
        1 => arguments.len() as u8,
        2 | 3 => random.within(1..=arguments.len()) as u8,
        _ if inner.is_empty() => random.within(1..=arguments.len()) as u8,
        _ => random.pick(&inner),
    }
}

/// The number of the longest argument of a production.
fn longest(grammar: &Grammar, tree: &[u8], place: &Place) -> u8 {
    let numbers = 1..=place.arguments(grammar, tree).len() as u8;
    let length = |&number: &u8| {
        let argument = place.argument(grammar, tree, number).expect("one of the arguments");
        argument.end(grammar, tree) - argument.start
    };
    numbers.max_by_key(length).expect("there is an argument")
}

/// A walk down a legal tree that goes on in so many of a hundred cases; some follow the longest
/// arguments, which lead to the deepest blocks.
fn walk(random: &mut Random, grammar: &Grammar, root: u8, tree: &[u8], on: usize) -> Walk {
    let (mut path, mut place) = (vec![], Place::root(root, tree));
    let deep = on == 100 || random.percent(20);
    loop {
        let arguments = place.arguments(grammar, tree);
        if arguments.is_empty() || !random.percent(on) {
            return Walk { path, arguments: arguments.len() };
        }
        let number = match deep {
            true => longest(grammar, tree, &place),
            false => number(random, grammar, arguments),
        };
        path.push(number);
        place = place.argument(grammar, tree, number).expect("one of the arguments");
    }
}

/// Makes a path wrong, likely: at its end or, seldom, at any place.
fn damage_path(random: &mut Random, walk: &mut Walk) {
    let (path, last) = (&mut walk.path, walk.arguments as u8);
    match random.below(8) {
        0 => path.push(0),
        1..=3 => path.push(last + 1),
        4 => path.push(random.pick(&[9, 128, 255])),
        5 => path.extend([last + 1, 1]),
        6 if !path.is_empty() => {
            let place = random.below(path.len());
            path[place] = random.pick(&[0, 1, 2, 8, 9, 255]);
        }
        _ => path.insert(random.below(path.len() + 1), random.within(0..=3) as u8),
    }
}

/// A path for a legal tree, which is wrong in so many of a hundred cases.
pub fn path_in(random: &mut Random, case: &TreeCase, wrong: usize) -> Vec<u8> {
    let language = read_language(&case.language).expect("an accepted language");
    let (grammar, on) = (Grammar::new(&language), random.pick(&[50, 85, 98, 100]));
    let mut walk = walk(random, &grammar, case.root as u8, &case.tree, on);
    if random.percent(wrong) {
        damage_path(random, &mut walk);
    }
    walk.path
}

/// A language, a root, a tree with an index, and a path.
pub fn block_case(random: &mut Random) -> BlockCase {
    let case = indexed_tree_case(random);
    let path = match is_legal(&case) {
        true => path_in(random, &case, 30),
        false => (0..random.below(4)).map(|_| random.within(0..=3) as u8).collect(),
    };
    let index = index_for(random, &case, 15);
    let TreeCase { language, root, tree } = case;
    BlockCase { language, root, tree, index, path }
}
