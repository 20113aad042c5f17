//! Languages, translations with codes of 16 levels, and trees of 64 levels.

use reference::files::{class, clause, mapping, production, translation};

/// The kind of all productions, and that of the tokens.
pub const KIND: u8 = 1;
pub const TOKEN_KIND: u8 = 2;
pub const ROOT: u32 = KIND as u32;

/// Names of productions; a name from 1 to 8 has so many arguments. The code of the deep leaf
/// has 16 levels and a token below them, so that the last level of a tree passes through them too.
pub const LEAF: u8 = 0;
const TOKEN: u8 = 9;
const PAIR: u8 = 10;
const EIGHT: u8 = 11;
const TWICE: u8 = 12;
const DEEP_LEAF: u8 = 13;
const FIRST_FILLER: u8 = 0x40;

/// Signs of a code.
pub const NODE: u8 = 1;
const TOKEN_SIGN: u8 = 2;
const ARGUMENT: u8 = 3;

/// The most levels of a code and of a tree; a token is none.
pub const CODE_LEVELS: usize = 16;
pub const TREE_LEVELS: usize = 64;

/// The most bytes of a language and of a translation, and the most arguments.
const LANGUAGE_BYTES: usize = 1024;
const TRANSLATION_BYTES: usize = 4096;
pub const MOST_ARGUMENTS: usize = 8;

/// How a code of 16 levels uses the arguments beside the one that its deepest level uses.
#[derive(Clone, Copy, Debug, PartialEq, Eq)]
pub enum Order {
    /// Not at all.
    Dropped,
    /// At level 2, in order or from the last to the first.
    High,
    HighReversed,
    /// At level 16, in order or from the last to the first.
    Low,
    LowReversed,
    /// The code is an argument alone, of one level.
    Alone,
    /// The code of 16 levels uses no argument.
    Constant,
    /// The code of 16 levels uses no argument and has a token below the last level.
    Token,
    /// The code has 17 levels, one too many.
    TooDeep,
}

/// The orders of well-formed codes; the first ones differ even if there is one argument.
const ORDERS: [Order; 8] = [
    Order::Dropped,
    Order::Alone,
    Order::Constant,
    Order::Token,
    Order::High,
    Order::HighReversed,
    Order::Low,
    Order::LowReversed,
];
const ORDERS_OF_ONE: usize = 4;

/// How large languages and translations are.
#[derive(Clone, Copy, Debug, PartialEq, Eq)]
pub enum Size {
    /// One deep clause and no production that is not needed for it.
    Lean,
    /// Some deep clauses.
    Small,
    /// Both languages have 1,024 bytes.
    Wide,
    /// The translation has 4,096 bytes, or up to three less.
    Long,
}

/// A language with a translation of it into itself by codes of 16 levels.
#[derive(Clone, Copy, Debug)]
pub struct Shape {
    /// The number of arguments of the production that is nested.
    pub count: u8,
    /// Which of its operands is the deep one in a code.
    pub place: u8,
    /// Which of the arguments the code uses, and is the deep one in a tree.
    pub used: u8,
    pub order: Order,
    pub size: Size,
}

/// What stands at some level of a tree instead of the nested production or the deep leaf.
#[derive(Clone, Copy, Debug)]
pub enum Detour {
    None,
    /// The production of the last level has a token below it.
    Token,
    /// A pair with a long subtree before or after the deep one.
    LongBefore(usize),
    LongAfter(usize),
    /// Productions that double their argument, on this level and the next.
    Twice(usize),
}

/// Places of an operand among so many: first, middle and last.
fn places(count: u8) -> Vec<u8> {
    let mut places = vec![1, count.div_ceil(2), count];
    places.dedup();
    places
}

/// Shapes of one size with all numbers of arguments, places and orders.
pub fn shapes(size: Size) -> Vec<Shape> {
    let mut shapes = Vec::new();
    for count in [1, 2, 3, 8] {
        let orders = if count == 1 { &ORDERS[..ORDERS_OF_ONE] } else { &ORDERS };
        for place in places(count) {
            for used in places(count) {
                let of = |&order| Shape { count, place, used, order, size };
                shapes.extend(orders.iter().map(of));
            }
        }
    }
    shapes
}

/// A code that is an argument.
pub fn argument(number: u8) -> Vec<u8> {
    vec![ARGUMENT, number]
}

/// A production of one token: a code of one level, since the token is none.
fn token_code() -> Vec<u8> {
    vec![NODE, TOKEN, TOKEN_SIGN, 0, 5]
}

/// A production with all its arguments in order: a code of two levels.
pub fn kept(name: u8, count: u8) -> Vec<u8> {
    let arguments = (1..=count).flat_map(argument);
    [NODE, name].into_iter().chain(arguments).collect()
}

/// A code of some length, short of it by at most three bytes, and few levels.
fn wide_code(bytes: usize) -> Vec<u8> {
    if bytes < 6 {
        return vec![NODE, LEAF];
    }
    let left = ((bytes - 2) / 2).div_ceil(4) * 4 - 2;
    [vec![NODE, PAIR], wide_code(left), wide_code(bytes - 2 - left)].concat()
}

/// A tree of five levels and 4,681 bytes.
fn long_tree() -> Vec<u8> {
    (0..4).fold(vec![LEAF], |below, _| [vec![EIGHT], below.repeat(MOST_ARGUMENTS)].concat())
}

impl Shape {
    /// The nested production with a deep operand and the others from a list.
    fn nested(&self, deep: &[u8], others: &[Vec<u8>]) -> Vec<u8> {
        let mut others = others.iter();
        let mut code = vec![NODE, self.count];
        for place in 1..=self.count {
            let mut other = || others.next().map_or(vec![NODE, LEAF], Vec::clone);
            code.extend(if place == self.place { deep.to_vec() } else { other() });
        }
        code
    }

    /// The nested production so many times around a code; the other operands are leaves.
    fn around(&self, times: usize, bottom: Vec<u8>) -> Vec<u8> {
        (0..times).fold(bottom, |code, _| self.nested(&code, &[]))
    }

    /// The arguments for which the test holds, as codes; some orders reverse them.
    fn arguments(&self, test: impl Fn(&u8) -> bool) -> Vec<Vec<u8>> {
        let mut numbers: Vec<u8> = (1..=self.count).filter(test).collect();
        if matches!(self.order, Order::HighReversed | Order::LowReversed) {
            numbers.reverse();
        }
        numbers.into_iter().map(argument).collect()
    }

    /// The code for the nested production, mostly of 16 levels.
    fn deep_code(&self) -> Vec<u8> {
        let used = argument(self.used);
        match self.order {
            Order::Dropped => self.around(CODE_LEVELS - 1, used),
            Order::Alone => used,
            Order::Constant => self.around(CODE_LEVELS - 1, kept(DEEP_LEAF, 0)),
            Order::Token => self.around(CODE_LEVELS - 1, token_code()),
            Order::TooDeep => self.around(CODE_LEVELS, used),
            Order::High | Order::HighReversed => {
                let others = self.arguments(|&number| number != self.used);
                self.nested(&self.around(CODE_LEVELS - 2, used), &others)
            }
            Order::Low | Order::LowReversed => {
                let all = self.arguments(|_| true).concat();
                self.around(CODE_LEVELS - 2, [vec![NODE, self.count], all].concat())
            }
        }
    }

    /// The productions without fillers, by rising name: names and argument kinds.
    fn names(&self) -> Vec<(u8, Vec<u8>)> {
        let kinds = |count: u8| vec![KIND; usize::from(count)];
        let mut names = vec![(LEAF, vec![]), (self.count, kinds(self.count))];
        names.push((TOKEN, vec![TOKEN_KIND]));
        if self.size != Size::Lean {
            names.extend([(PAIR, kinds(2)), (EIGHT, kinds(8)), (TWICE, kinds(1))]);
        }
        names.push((DEEP_LEAF, vec![]));
        names
    }

    /// The numbers of arguments of the fillers.
    fn fillers(&self) -> Vec<usize> {
        const LEAST: usize = 5;
        const MOST: usize = LEAST + MOST_ARGUMENTS;
        let mut rest = LANGUAGE_BYTES - self.plain_language().len();
        let mut fillers = Vec::new();
        while self.size == Size::Wide && rest > 0 {
            let bytes = match rest {
                ..=MOST => rest,
                _ if rest < MOST + LEAST => rest - LEAST,
                _ => MOST,
            };
            fillers.push(bytes - LEAST);
            rest -= bytes;
        }
        if self.size == Size::Long {
            fillers.push(0);
        }
        fillers
    }

    /// The language without fillers.
    fn plain_language(&self) -> Vec<u8> {
        let names = self.names().into_iter();
        let productions = names.map(|(name, kinds)| production(KIND, name, &kinds));
        [vec![class(TOKEN_KIND, 0, u16::MAX)], productions.collect()].concat().concat()
    }

    /// The language.
    pub fn language(&self) -> Vec<u8> {
        let fillers = self.fillers().into_iter().zip(FIRST_FILLER..);
        let fillers = fillers.map(|(count, name)| production(KIND, name, &vec![KIND; count]));
        [vec![self.plain_language()], fillers.collect()].concat().concat()
    }

    /// The code of a production that is no filler.
    fn code(&self, name: u8, count: u8) -> Vec<u8> {
        let deep = |bottom| self.around(CODE_LEVELS - 2, bottom);
        match name {
            LEAF | EIGHT => kept(name, count),
            TOKEN if self.size == Size::Lean => kept(name, count),
            TOKEN | PAIR => deep(kept(name, count)),
            DEEP_LEAF => self.around(CODE_LEVELS - 1, token_code()),
            TWICE => deep([vec![NODE, PAIR], argument(1), argument(1)].concat()),
            _ => self.deep_code(),
        }
    }

    /// The clauses of productions that are no fillers, with codes by name and arguments.
    fn clauses(&self, code: impl Fn(u8, u8) -> Vec<u8>) -> Vec<u8> {
        let names = self.names().into_iter();
        let fields = names.map(|(name, kinds)| clause(KIND, name, &code(name, kinds.len() as u8)));
        fields.collect::<Vec<_>>().concat()
    }

    /// A body from the clauses; those of fillers are leaves, or one fills the translation.
    fn with_fillers(&self, clauses: Vec<u8>) -> Vec<u8> {
        let mut body = [mapping(KIND, KIND), mapping(TOKEN_KIND, TOKEN_KIND), clauses].concat();
        let fixed = translation(&self.language(), &self.language(), &body).len();
        for (_, name) in self.fillers().into_iter().zip(FIRST_FILLER..) {
            let code = match self.size {
                Size::Long => wide_code(TRANSLATION_BYTES - fixed - clause(KIND, name, &[]).len()),
                _ => kept(LEAF, 0),
            };
            body.extend(clause(KIND, name, &code));
        }
        body
    }

    /// The body with deep codes.
    pub fn body(&self) -> Vec<u8> {
        self.with_fillers(self.clauses(|name, count| self.code(name, count)))
    }

    /// The body of the identity, but for the fillers.
    pub fn flat_body(&self) -> Vec<u8> {
        self.with_fillers(self.clauses(kept))
    }

    /// The translation with deep codes.
    pub fn translation(&self) -> Vec<u8> {
        translation(&self.language(), &self.language(), &self.body())
    }

    /// A tree of exactly so many levels.
    pub fn tree(&self, levels: usize, detour: Detour) -> Vec<u8> {
        let bottom = match detour {
            Detour::Token => vec![TOKEN, 0, 5],
            _ => vec![DEEP_LEAF],
        };
        (1..levels).rev().fold(bottom, |below, level| self.level(level, detour, below))
    }

    /// One level of a tree over the one below it.
    fn level(&self, level: usize, detour: Detour, below: Vec<u8>) -> Vec<u8> {
        match detour {
            Detour::LongBefore(at) if at == level => [vec![PAIR], long_tree(), below].concat(),
            Detour::LongAfter(at) if at == level => [vec![PAIR], below, long_tree()].concat(),
            Detour::Twice(at) if at == level || at + 1 == level => [vec![TWICE], below].concat(),
            _ => {
                let before = vec![LEAF; usize::from(self.used) - 1];
                let after = vec![LEAF; usize::from(self.count - self.used)];
                [vec![self.count], before, below, after].concat()
            }
        }
    }
}
