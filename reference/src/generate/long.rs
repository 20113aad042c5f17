//! Runs on long trees: subtrees of all lengths, many of about 4,096 bytes, at all levels.

use super::languages::language;
use super::lengths::{Bounds, Lengths};
use super::random::Random;
use super::ranges::legal_value;
use super::translations::{arrangement, endomorphism, translation, translation_bytes, RunCase};
use crate::code::{symbols, Symbol};
use crate::language::{Class, Language, ARGUMENTS, KINDS};
use crate::run::result_length;
use crate::translation::Translation;
use crate::tree::TREE_LEVELS;
use std::ops::Range;

/// A tree of at least this many bytes is long.
pub const LONG_TREE: usize = 4000;
/// Long trees are grown up to about this many bytes.
const MOST: usize = 200_000;
/// Many subtrees are about this long.
const EDGE: usize = 4096;
/// A result that is longer than this gets too short an output.
const MOST_OUTPUT: u64 = 1 << 19;

/// A run on a long tree, and what is known of the tree before it was damaged.
#[derive(Clone, Debug)]
pub struct LongRunCase {
    pub case: RunCase,
    /// The number of levels.
    pub levels: usize,
    /// Where the subtrees of 4,000 bytes or more start and end.
    pub subtrees: Vec<Range<usize>>,
}

/// How the bytes of a tree are shared out among its subtrees.
struct Habit {
    /// The tree has at most so many levels.
    levels: usize,
    /// In so many of a hundred nodes one argument gets nearly all.
    spine: usize,
    /// So many of a hundred arguments are made about 4,096 bytes long, if they can be.
    edge: usize,
    /// What is written more often than this is kept as short as it can be.
    copies: u64,
    /// In so many of a hundred nodes the arguments that are not written may be long too.
    drops: usize,
}

/// What a subtree is to be: its length if possible, its levels, how often it is written, and
/// whether those of its arguments that are not written may be long.
#[derive(Clone, Copy)]
struct Wish {
    length: usize,
    levels: usize,
    copies: u64,
    drops: bool,
}

/// Grows one long tree of the source of a translation.
struct LongGrower<'a> {
    source: &'a Language,
    lengths: &'a Lengths,
    /// For each production how often its clauses use each argument, by whichever number the most.
    uses: Vec<[u64; ARGUMENTS]>,
    /// For each kind its class, and the places of its productions.
    classes: [Option<Class>; KINDS],
    places: [Range<usize>; KINDS],
    habit: Habit,
    tree: Vec<u8>,
    subtrees: Vec<Range<usize>>,
    /// The number of levels so far.
    levels: usize,
    /// The last production at the last level that is allowed, and a name with a level below.
    deepest: Option<(usize, u8)>,
}

impl<'a> LongGrower<'a> {
    /// A grower with an empty tree.
    fn new(value: &'a Translation, lengths: &'a Lengths, habit: Habit) -> LongGrower<'a> {
        let source = &value.source;
        let mut classes = [None; KINDS];
        source.classes.iter().for_each(|class| classes[class.kind as usize] = Some(*class));
        let end = |kind: u8| source.productions.partition_point(|p| p.result < kind);
        let places = std::array::from_fn(|kind| end(kind as u8)..end(kind as u8 + 1));
        let uses = source.productions.iter().map(|production| most_uses(value, production.key()));
        let uses = uses.collect();
        LongGrower {
            source,
            lengths,
            uses,
            classes,
            places,
            habit,
            tree: vec![],
            subtrees: vec![],
            levels: 0,
            deepest: None,
        }
    }

    /// Appends a tree of the kind.
    fn grow(&mut self, random: &mut Random, kind: u8, wish: Wish) {
        if let Some(class) = self.classes[kind as usize] {
            return self.tree.extend_from_slice(&legal_value(random, &class).to_be_bytes());
        }
        let (start, level) = (self.tree.len(), self.habit.levels - wish.levels + 1);
        self.levels = self.levels.max(level);
        if level == TREE_LEVELS {
            self.deepest = self.deeper_name(kind).map(|name| (start, name)).or(self.deepest);
        }
        let place = self.production(random, kind, wish);
        self.tree.push(self.source.productions[place].name);
        self.grow_arguments(random, place, wish);
        if self.tree.len() - start >= LONG_TREE {
            self.subtrees.push(start..self.tree.len());
        }
    }

    /// The name of a production of the kind whose first argument is a level more.
    fn deeper_name(&self, kind: u8) -> Option<u8> {
        let mut productions = self.source.productions[self.places[kind as usize].clone()].iter();
        let deeper = |&kind: &u8| self.classes[kind as usize].is_none();
        let found =
            productions.find(|production| production.arguments().first().is_some_and(deeper));
        found.map(|production| production.name)
    }

    /// Appends the arguments of the production at a place.
    fn grow_arguments(&mut self, random: &mut Random, place: usize, wish: Wish) {
        let arguments = self.source.productions[place].arguments();
        let end = self.tree.len() + wish.length.saturating_sub(1);
        let spine = random.percent(self.habit.spine).then(|| random.below(arguments.len().max(1)));
        let behind = self.bounds_behind(place, wish);
        for (number, &kind) in arguments.iter().enumerate() {
            let rest = end.saturating_sub(self.tree.len());
            let own = self.argument_bounds(place, number, wish).expect("there is a tree");
            let behind = behind[number + 1];
            let most = own.most.min(rest.saturating_sub(behind.least)).max(own.least);
            let least = own.least.max(rest.saturating_sub(behind.most)).min(most);
            let length =
                self.share(random, Bounds { least, most }, spine.map(|spine| spine == number));
            let copies = wish.copies.saturating_mul(self.uses[place][number]);
            let drops = random.percent(self.habit.drops);
            self.grow(random, kind, Wish { length, levels: wish.levels - 1, copies, drops });
        }
    }

    /// A length within the bounds for an argument; it is told whether it is the spine.
    fn share(&self, random: &mut Random, bounds: Bounds, spine: Option<bool>) -> usize {
        let Bounds { least, most } = bounds;
        if least == most {
            return least;
        }
        let about_edge = most >= EDGE && random.percent(self.habit.edge);
        match spine {
            Some(true) => most,
            _ if about_edge => random.within(EDGE - 3..=EDGE + 3).clamp(least, most),
            Some(false) => random.within(least..=most.min(least + 30)),
            None => random.within(least..=most),
        }
    }

    /// The bounds of an argument; one that is written too often or not at all may be kept short.
    fn argument_bounds(&self, place: usize, number: usize, wish: Wish) -> Option<Bounds> {
        let kind = self.source.productions[place].arguments()[number];
        let bounds = self.lengths.of(kind, wish.levels - 1)?;
        let copies = wish.copies.saturating_mul(self.uses[place][number]);
        let dropped = copies == 0 && wish.copies > 0 && !wish.drops;
        let short = dropped || copies > self.habit.copies;
        Some(Bounds { most: if short { bounds.least } else { bounds.most }, ..bounds })
    }

    /// For each number the bounds of the arguments from there on together.
    fn bounds_behind(&self, place: usize, wish: Wish) -> [Bounds; ARGUMENTS + 1] {
        let mut behind = [Bounds::default(); ARGUMENTS + 1];
        for number in (0..self.source.productions[place].arguments().len()).rev() {
            let own = self.argument_bounds(place, number, wish).expect("there is a tree");
            behind[number] = own.and(behind[number + 1]);
        }
        behind
    }

    /// How far the production at a place is from the length wished for, if it has a tree.
    fn distance(&self, place: usize, wish: Wish) -> Option<usize> {
        let mut numbers = 0..self.source.productions[place].arguments().len();
        let bounds = numbers.try_fold(Bounds { least: 1, most: 1 }, |bounds, number| {
            Some(bounds.and(self.argument_bounds(place, number, wish)?))
        });
        bounds.map(|bounds| bounds.distance(wish.length))
    }

    /// A production of the kind, one of those nearest to the length wished for.
    fn production(&self, random: &mut Random, kind: u8, wish: Wish) -> usize {
        let places = self.places[kind as usize].clone();
        let any = random.within(places.start..=places.end - 1);
        if self.distance(any, wish) == Some(0) {
            return any;
        }
        let from_any = (any..places.end).chain(places.start..any);
        let near = from_any.filter_map(|place| Some((self.distance(place, wish)?, place)));
        near.min_by_key(|(distance, _)| *distance).expect("the kind has a tree").1
    }
}

/// How often a code uses each argument.
fn uses(code: &[u8]) -> [u64; ARGUMENTS] {
    let mut uses = [0; ARGUMENTS];
    for symbol in symbols(code) {
        if let Symbol::Argument(number, _) = symbol {
            uses[number as usize] += 1;
        }
    }
    uses
}

/// How often the clauses of a production use each argument, by whichever number the most.
fn most_uses(value: &Translation, key: u16) -> [u64; ARGUMENTS] {
    let clauses = value.body.clauses.iter().filter(|clause| clause.key == key);
    clauses.map(|clause| uses(clause.code)).fold([0; ARGUMENTS], |most, uses| {
        std::array::from_fn(|argument| most[argument].max(uses[argument]))
    })
}

/// The length of a tree to grow: the shorter the more often, some about once or twice 4,096.
fn wanted_length(random: &mut Random) -> usize {
    match random.below(8) {
        0 => random.within(EDGE - 4..=EDGE + 8),
        1 => random.within(2 * EDGE - 4..=2 * EDGE + 8),
        _ => {
            let about = EDGE << random.pick(&[1, 1, 2, 2, 3, 3, 4, 5]);
            random.within(about / 2..=about * 3 / 2).min(MOST)
        }
    }
}

/// An accepted translation; mostly one of a language into itself.
fn any_translation(random: &mut Random) -> Translation {
    let language = language(random);
    match random.below(6) {
        0 => translation(random),
        1 => endomorphism(random, &language),
        _ => arrangement(random, &language),
    }
}

/// The kinds with a tree of at least that length.
fn long_kinds(lengths: &Lengths, length: usize) -> Vec<u8> {
    let long = |&kind: &u8| lengths.of(kind, TREE_LEVELS).is_some_and(|b| b.most >= length);
    (0..KINDS as u8).filter(long).collect()
}

/// A habit for trees of a kind that can be so long: any number of levels that is enough.
fn habit(random: &mut Random, lengths: &Lengths, kind: u8, length: usize) -> Habit {
    let enough = |&levels: &usize| lengths.of(kind, levels).is_some_and(|b| b.most >= length);
    let least = (1..=TREE_LEVELS).find(enough).expect("the kind has a tree of the length");
    let levels = if random.percent(50) { TREE_LEVELS } else { random.within(least..=TREE_LEVELS) };
    let (spine, edge) = (random.pick(&[0, 20, 60, 90, 98]), random.pick(&[0, 5, 30, 60]));
    let (copies, drops) = (random.pick(&[2, 4, 4, 8]), random.pick(&[0, 0, 2, 5, 50]));
    Habit { levels, spine, edge, copies, drops }
}

/// A grower whose tree is of the kind, and of about that length if it can be with its habit.
fn grown<'a>(
    random: &mut Random,
    value: &'a Translation,
    lengths: &'a Lengths,
    root: u8,
    length: usize,
) -> LongGrower<'a> {
    let habit = habit(random, lengths, root, length);
    let drops = random.percent(habit.drops);
    let wish = Wish { length, levels: habit.levels, copies: 1, drops };
    let mut grower = LongGrower::new(value, lengths, habit);
    grower.grow(random, root, wish);
    grower
}

/// Changes, cuts off or adds bytes, mostly late in the tree.
fn damage_late(random: &mut Random, grower: &mut LongGrower) {
    let length = grower.tree.len();
    match (grower.deepest, random.below(10)) {
        (Some((place, name)), 0..=4) => grower.tree[place] = name,
        (_, 0 | 5) => grower.tree.truncate(length - random.within(1..=4)),
        (_, 1 | 6) => grower.tree.push(random.byte()),
        (_, 2 | 7) => grower.tree[length - random.within(1..=40)] = random.byte(),
        (_, 3 | 8) => grower.tree[random.within(length / 2..=length - 1)] = random.byte(),
        _ => damage_edge(random, grower),
    }
}

/// Changes the first byte of one of the long subtrees, the last, or the one behind it.
fn damage_edge(random: &mut Random, grower: &mut LongGrower) {
    let subtree = &grower.subtrees[random.below(grower.subtrees.len())];
    let place = random.pick(&[subtree.start, subtree.end - 1, subtree.end]);
    let last = grower.tree.len() - 1;
    grower.tree[place.min(last)] = random.byte();
}

/// An output length for a result of that length: exact, one short of it, or some more.
fn output_length(random: &mut Random, result: u64) -> usize {
    if result > MOST_OUTPUT {
        return random.below(5000);
    }
    let exact = result as usize;
    match random.below(8) {
        0 => exact + random.below(20),
        1 | 2 => exact - 1,
        _ => exact,
    }
}

/// A run on a long tree, if a tree of about that length is grown for a random translation.
fn try_long_run_case(random: &mut Random, length: usize) -> Option<LongRunCase> {
    let value = any_translation(random);
    let lengths = Lengths::new(&value.source);
    let kinds = long_kinds(&lengths, length);
    if kinds.is_empty() {
        return None;
    }
    let root = random.pick(&kinds);
    let numbers: Vec<(u8, u8)> = value.body.numbers(root).collect();
    let number = random.pick(&numbers).0;
    let mut grower = grown(random, &value, &lengths, root, length);
    let result = result_length(&value, root, number, &grower.tree).expect("a legal tree");
    let too_short = grower.tree.len() < LONG_TREE + 4;
    if too_short || result > MOST_OUTPUT && random.percent(90) {
        return None;
    }
    let output = output_length(random, result);
    if random.percent(35) {
        damage_late(random, &mut grower);
    }
    let LongGrower { tree, levels, subtrees, .. } = grower;
    let translation = translation_bytes(random, &value);
    let (root, number) = (u32::from(root), u32::from(number));
    let case = RunCase { translation, root, number, tree, output };
    Some(LongRunCase { case, levels, subtrees })
}

/// A run on a long tree, which is sometimes damaged.
pub fn long_run_case(random: &mut Random) -> LongRunCase {
    let length = wanted_length(random);
    loop {
        if let Some(case) = try_long_run_case(random, length) {
            return case;
        }
    }
}
