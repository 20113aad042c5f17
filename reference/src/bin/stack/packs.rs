//! Packs whose terms have 12 levels: signs around a bottom, in all ways.

use crate::mixed::Mixed;
use crate::shapes::{shapes, Order, Shape, Size};
use reference::files::pack;
use reference::generate::{with_turns, with_twin, Random};

/// The most levels of a term.
const TERM_LEVELS: usize = 12;

/// Terms name so many bodies, one of which is flat.
const BODIES: usize = 7;
const FLAT_BODY: usize = 1;
/// The number that some bodies have besides 0.
const NUMBER: u8 = 1;

/// Binds variable 0 to the deep translation, then the other variable 0 to its language.
const BINDINGS: &[u8] = &[0x57, 0, 0x50, 0x40, 0, 0x40, 0, 0, 0x56, 0, 0x40, 0];
const BINDING_LEVELS: usize = 2;

/// Signs with a hole for a term.
struct Step {
    name: &'static str,
    before: &'static [u8],
    after: &'static [u8],
    /// How much deeper the hole is.
    depth: usize,
}

/// A row of the table of steps.
const fn step(
    name: &'static str,
    depth: usize,
    before: &'static [u8],
    after: &'static [u8],
) -> Step {
    Step { name, before, after, depth }
}

/// Steps from translation terms to translation terms. Language 0 is that of the deep
/// translation, language 1 is empty, body 1 is flat.
const STEPS: [Step; 22] = [
    step("54 X .", 1, &[0x54], &[0x55, 0x40, 0]),
    step("54 . X", 1, &[0x54, 0x55, 0x40, 0], &[]),
    step("53 X .", 1, &[0x53], &[0x55, 0x40, 0]),
    step("53 . X", 1, &[0x53, 0x55, 0x40, 0], &[]),
    step("52 X .", 1, &[0x52], &[0x40, 1]),
    step("52 . (44 X)", 2, &[0x52, 0x55, 0x40, 0, 0x44], &[]),
    step("55 (44 X)", 2, &[0x55, 0x44], &[]),
    step("55 (45 X)", 2, &[0x55, 0x45], &[]),
    step("50 (44 X) . .", 2, &[0x50, 0x44], &[0x40, 0, 1]),
    step("50 . (45 X) .", 2, &[0x50, 0x40, 0, 0x45], &[1]),
    step("56 . X", 1, &[0x56, 1, 0x40, 0], &[]),
    step("56 (44 X) .", 2, &[0x56, 1, 0x44], &[0x55, 0x40, 0]),
    step("57 X .", 1, &[0x57, 1], &[0x55, 0x40, 0]),
    step("57 . X", 1, &[0x57, 1, 0x55, 0x40, 0], &[]),
    step("55 (47 X .)", 2, &[0x55, 0x47, 1], &[0x40, 0]),
    step("55 (47 . (44 X))", 3, &[0x55, 0x47, 1, 0x55, 0x40, 0, 0x44], &[]),
    step("55 (46 (44 X) .)", 3, &[0x55, 0x46, 1, 0x44], &[0x40, 0]),
    step("55 (46 . (44 X))", 3, &[0x55, 0x46, 1, 0x40, 0, 0x44], &[]),
    step("55 (42 (44 X) .)", 3, &[0x55, 0x42, 0x44], &[0x40, 1]),
    step("55 (42 . (44 X))", 3, &[0x55, 0x42, 0x40, 0, 0x44], &[]),
    step("55 (43 (44 X) .)", 3, &[0x55, 0x43, 0x44], &[0x40, 0]),
    step("55 (43 . (44 X))", 3, &[0x55, 0x43, 0x40, 0, 0x44], &[]),
];

/// The places of a join and of a let among the steps.
const JOIN: usize = 0;
const LET: usize = 13;

/// Steps from language terms to language terms.
const LANGUAGE_STEPS: [Step; 8] = [
    step("42 L .", 1, &[0x42], &[0x40, 1]),
    step("42 . L", 1, &[0x42, 0x40, 0], &[]),
    step("43 L .", 1, &[0x43], &[0x40, 0]),
    step("43 . L", 1, &[0x43, 0x40, 0], &[]),
    step("46 L .", 1, &[0x46, 1], &[0x40, 0]),
    step("46 . L", 1, &[0x46, 1, 0x40, 0], &[]),
    step("47 . L", 1, &[0x47, 1, 0x55, 0x40, 0], &[]),
    step("44 (52 . L)", 2, &[0x44, 0x52, 0x55, 0x40, 0], &[]),
];

/// A term at the bottom, of at least two levels; it may need the variables.
struct Bottom {
    name: &'static str,
    levels: usize,
    bound: bool,
    term: &'static [u8],
}

/// A row of the table of bottoms.
const fn bottom(name: &'static str, levels: usize, bound: bool, term: &'static [u8]) -> Bottom {
    Bottom { name, levels, bound, term }
}

const BOTTOMS: [Bottom; 21] = [
    bottom("deep body", 2, false, &[0x50, 0x40, 0, 0x40, 0, 0]),
    bottom("flat body", 2, false, &[0x50, 0x40, 0, 0x40, 0, 1]),
    bottom("identity", 2, false, &[0x55, 0x40, 0]),
    bottom("deep join", 3, false, &[0x54, 0x50, 0x40, 0, 0x40, 0, 0, 0x50, 0x40, 0, 0x40, 0, 0]),
    bottom("join after identity", 3, false, &[0x54, 0x50, 0x40, 0, 0x40, 0, 0, 0x55, 0x40, 0]),
    bottom("join of a flat body", 3, false, &[0x54, 0x50, 0x40, 0, 0x40, 0, 1, 0x55, 0x40, 0]),
    bottom("sum", 3, false, &[0x53, 0x50, 0x40, 0, 0x40, 0, 0, 0x50, 0x40, 0, 0x40, 0, 0]),
    bottom("too deep body", 2, false, &[0x50, 0x40, 0, 0x40, 0, 4]),
    bottom(
        "join, alone first",
        3,
        false,
        &[0x54, 0x50, 0x40, 0, 0x40, 0, 2, 0x50, 0x40, 0, 0x40, 0, 0],
    ),
    bottom(
        "join, constant first",
        3,
        false,
        &[0x54, 0x50, 0x40, 0, 0x40, 0, 3, 0x50, 0x40, 0, 0x40, 0, 0],
    ),
    bottom(
        "join, constant second",
        3,
        false,
        &[0x54, 0x50, 0x40, 0, 0x40, 0, 0, 0x50, 0x40, 0, 0x40, 0, 3],
    ),
    bottom(
        "join, mate second",
        3,
        false,
        &[0x54, 0x50, 0x40, 0, 0x40, 0, 0, 0x50, 0x40, 0, 0x40, 0, 5],
    ),
    bottom(
        "join, token second",
        3,
        false,
        &[0x54, 0x50, 0x40, 0, 0x40, 0, 0, 0x50, 0x40, 0, 0x40, 0, 6],
    ),
    bottom("deep join of variables", 2, true, &[0x54, 0x51, 0, 0x51, 0]),
    bottom(
        "join of variables",
        3,
        true,
        &[0x57, 2, 0x50, 0x40, 0, 0x40, 0, 3, 0x54, 0x51, 0, 0x51, 2],
    ),
    bottom("sum of variables", 2, true, &[0x53, 0x51, 0, 0x51, 0]),
    bottom("without, of variables", 2, true, &[0x52, 0x51, 0, 0x41, 0]),
    bottom("body, of variables", 2, true, &[0x50, 0x41, 0, 0x41, 0, 0]),
    bottom("identity of a sum", 3, true, &[0x55, 0x43, 0x41, 0, 0x41, 0]),
    bottom("join with a sum", 3, true, &[0x54, 0x51, 0, 0x53, 0x51, 0, 0x51, 0]),
    bottom("join with an identity", 3, true, &[0x54, 0x55, 0x41, 0, 0x51, 0]),
];

/// The bottoms whose joins recur the most.
const DEEP_JOINS: [&str; 5] = [
    "join, constant second",
    "join, mate second",
    "join, token second",
    "deep join of variables",
    "join of variables",
];

/// Language terms at the bottom.
const LANGUAGE_BOTTOMS: [Bottom; 4] = [
    bottom("sum", 2, false, &[0x43, 0x40, 0, 0x40, 0]),
    bottom("without", 2, false, &[0x42, 0x40, 0, 0x40, 0]),
    bottom("source of a body", 3, false, &[0x44, 0x50, 0x40, 0, 0x40, 0, 0]),
    bottom(
        "target of a join",
        4,
        false,
        &[0x45, 0x54, 0x50, 0x40, 0, 0x40, 0, 0, 0x50, 0x40, 0, 0x40, 0, 0],
    ),
];

/// The sign around a language term.
const IDENTITY: u8 = 0x55;

/// Languages and bodies that terms name.
struct Stock {
    name: String,
    languages: [Vec<u8>; 2],
    bodies: [Vec<u8>; BODIES],
}

/// A name with the bytes of a pack.
pub type NamedPack = (String, Vec<u8>);

/// Steps in turn around a term, until there is no room for a level more.
fn filled(bottom: &[u8], mut room: usize, mut next: impl FnMut() -> &'static Step) -> Vec<u8> {
    let mut term = bottom.to_vec();
    while room > 0 {
        let chosen = next();
        let Step { before, after, depth, .. } =
            if chosen.depth <= room { chosen } else { next_smaller(chosen) };
        term = [before, &term[..], after].concat();
        room -= depth;
    }
    term
}

/// A step of depth 1 of the same sort as one that is too deep.
fn next_smaller(step: &Step) -> &'static Step {
    match step.before[0] {
        0x50.. => &STEPS[JOIN],
        _ => &LANGUAGE_STEPS[0],
    }
}

impl Bottom {
    /// A term of 12 levels: steps in turn around the bottom.
    fn under(&self, next: impl FnMut() -> &'static Step) -> Vec<u8> {
        let (bindings, levels) = if self.bound { (BINDINGS, BINDING_LEVELS) } else { (&[][..], 0) };
        [bindings, &filled(self.term, TERM_LEVELS - self.levels - levels, next)].concat()
    }

    /// The same with two steps by turns.
    fn under_two(&self, outer: &'static Step, inner: &'static Step) -> Vec<u8> {
        let mut turns = [inner, outer].into_iter().cycle();
        self.under(|| turns.next().expect("it has no end"))
    }
}

impl Stock {
    /// The languages and bodies of a shape.
    ///
    /// As second operands of a join, the constant body and the last two have their deep operands
    /// where the deep body looks for them.
    fn of(shape: &Shape) -> Stock {
        let mate = Shape { place: shape.used, ..*shape };
        let bodies = [
            shape.body(),
            shape.flat_body(),
            Shape { order: Order::Alone, ..*shape }.body(),
            Shape { order: Order::Constant, ..mate }.body(),
            Shape { order: Order::TooDeep, ..*shape }.body(),
            mate.body(),
            Shape { order: Order::Token, ..mate }.body(),
        ];
        Stock { name: format!("{shape:?}"), languages: [shape.language(), vec![]], bodies }
    }

    /// The same languages and bodies, with a second number besides 0 in each body: arguments are used
    /// by the same number in one half of the bodies, and by the other in the other half.
    fn numbered(&self) -> Stock {
        let mut bodies = self.bodies.clone();
        for (place, body) in bodies.iter_mut().enumerate() {
            *body = if place % 2 == 0 { with_twin(body, NUMBER) } else { with_turns(body, NUMBER) };
        }
        let name = format!("by 0 and {NUMBER}, {}", self.name);
        Stock { name, languages: self.languages.clone(), bodies }
    }

    /// Random bodies, but for the flat one, over a random language.
    fn random(random: &mut Random) -> Stock {
        let mixed = Mixed::new(random);
        let mut bodies = std::array::from_fn(|_| mixed.body(random));
        bodies[FLAT_BODY] = mixed.flat_body();
        Stock { name: String::new(), languages: [mixed.language(), vec![]], bodies }
    }

    /// The pack with a term.
    fn pack(&self, term: &[u8]) -> Vec<u8> {
        pack(&self.languages, &self.bodies, term)
    }

    /// The pack with a term, named by the term and the stock.
    fn named(&self, name: &str, term: &[u8]) -> NamedPack {
        (format!("{name}, {}", self.name), self.pack(term))
    }

    /// One step again and again around a bottom.
    fn repeated(&self, step: &'static Step, bottom: &Bottom) -> NamedPack {
        let name = format!("{} around {}", step.name, bottom.name);
        self.named(&name, &bottom.under(|| step))
    }
}

/// The bottoms with deep joins.
fn deep_joins() -> impl Iterator<Item = &'static Bottom> {
    BOTTOMS.iter().filter(|bottom| DEEP_JOINS.contains(&bottom.name))
}

/// Shapes that differ in what a join may need: arguments, places, orders, sizes.
fn chosen_shapes() -> Vec<Shape> {
    let shape = |count, place, used, order, size| Shape { count, place, used, order, size };
    vec![
        shape(1, 1, 1, Order::Dropped, Size::Lean),
        shape(8, 8, 8, Order::Dropped, Size::Lean),
        shape(2, 1, 2, Order::LowReversed, Size::Lean),
        shape(3, 2, 1, Order::HighReversed, Size::Small),
        shape(8, 4, 4, Order::Low, Size::Small),
        shape(8, 1, 8, Order::LowReversed, Size::Wide),
        shape(1, 1, 1, Order::Dropped, Size::Long),
        shape(2, 2, 1, Order::High, Size::Long),
    ]
}

/// One step again and again around each bottom.
fn single_steps(stock: &Stock) -> Vec<NamedPack> {
    let one = |step| BOTTOMS.iter().map(move |bottom| stock.repeated(step, bottom));
    STEPS.iter().flat_map(one).collect()
}

/// The identity of a language term: one step again and again around each bottom.
fn language_steps(stock: &Stock) -> Vec<NamedPack> {
    let mut packs = Vec::new();
    for step in &LANGUAGE_STEPS {
        for bottom in &LANGUAGE_BOTTOMS {
            let name = format!("55 of {} around {}", step.name, bottom.name);
            let term = filled(bottom.term, TERM_LEVELS - 1 - bottom.levels, || step);
            packs.push(stock.named(&name, &[&[IDENTITY], &term[..]].concat()));
        }
    }
    packs
}

/// Joins or lets around the deep joins of every lean shape.
fn joins_of_all_shapes() -> Vec<NamedPack> {
    let mut packs = Vec::new();
    for stock in shapes(Size::Lean).iter().map(Stock::of) {
        for bottom in deep_joins() {
            packs.extend([JOIN, LET].map(|step| stock.repeated(&STEPS[step], bottom)));
        }
    }
    packs
}

/// Any two steps by turns around every second of the deep joins.
fn step_pairs(stock: &Stock) -> Vec<NamedPack> {
    let mut packs = Vec::new();
    for (outer, inner) in STEPS.iter().flat_map(|one| STEPS.iter().map(move |other| (one, other))) {
        for bottom in deep_joins().step_by(2) {
            let name = format!("{} and {} around {}", outer.name, inner.name, bottom.name);
            packs.push(stock.named(&name, &bottom.under_two(outer, inner)));
        }
    }
    packs
}

/// Signs 53 or 54 whose operands are both as deep as can be.
fn full_terms(stock: &Stock) -> Vec<NamedPack> {
    let mut packs = Vec::new();
    for (sign, name) in [(0x53, "sums"), (0x54, "joins")] {
        for (leaf, of) in [([0x51, 0], "deep bodies"), ([0x51, 1], "identities")] {
            let levels = TERM_LEVELS - BINDING_LEVELS - 2;
            let full = (0..levels).fold(leaf.to_vec(), |t, _| [&[sign], &t[..], &t].concat());
            let term = [BINDINGS, &[0x57, 1, 0x55, 0x40, 0], &full].concat();
            packs.push(stock.named(&format!("{name} of {of} on both sides"), &term));
        }
    }
    packs
}

/// All packs by construction.
pub fn fixed_packs() -> Vec<NamedPack> {
    let stocks: Vec<Stock> = chosen_shapes().iter().map(Stock::of).collect();
    let single = stocks.iter().flat_map(single_steps);
    let languages = stocks.iter().flat_map(language_steps);
    let pairs = stocks.iter().take(1).flat_map(step_pairs);
    let full = stocks.iter().flat_map(full_terms);
    let joins = joins_of_all_shapes();
    let numbered: Vec<Stock> = stocks.iter().take(4).map(Stock::numbered).collect();
    let numbered = numbered.iter().flat_map(single_steps);
    let single = single.chain(numbered);
    single.chain(languages).chain(pairs).chain(full).chain(joins).collect()
}

/// A random term of 12 levels.
fn random_term(random: &mut Random) -> Vec<u8> {
    let bottom = &BOTTOMS[random.below(BOTTOMS.len())];
    bottom.under(|| &STEPS[random.below(STEPS.len())])
}

/// A pack with a random term over a shape.
pub fn shape_pack(random: &mut Random) -> Vec<u8> {
    let shapes = chosen_shapes();
    let shape = &shapes[random.below(shapes.len())];
    Stock::of(shape).pack(&random_term(random))
}

/// A pack with a random term over random bodies.
pub fn mixed_pack(random: &mut Random) -> Vec<u8> {
    Stock::random(random).pack(&random_term(random))
}
