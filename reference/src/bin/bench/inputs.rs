//! The files and trees that are measured.

use crate::SIZES;
use reference::files::{field, production};
use reference::generate::Random;

/// A language of exactly 1,024 bytes: 16 classes, and productions of one to eight arguments.
pub fn full_language() -> Vec<u8> {
    let mut language = Vec::new();
    for kind in 0..16 {
        language.extend(field(0x11, &[kind, 0, kind, 1, kind]));
    }
    for key in 0.. {
        let arguments = vec![key % 32; usize::from(key % 8)];
        if language.len() + 5 + arguments.len() + 13 > 1024 {
            break;
        }
        language.extend(production(16 + key / 16, key, &arguments));
    }
    let rest = 1024 - language.len();
    language.extend(production(30, 0, &vec![1; rest / 2 - 5]));
    language.extend(production(31, 0, &vec![1; rest - rest / 2 - 5]));
    language
}

/// The language of the trees: a class 2, and kind 1 with zero to eight arguments.
pub fn tree_language() -> Vec<u8> {
    [
        field(0x11, &[2, 0, 0, 0xFF, 0xFF]),
        production(1, 0, &[]),
        production(1, 1, &[2]),
        production(1, 2, &[1, 1]),
        production(1, 3, &[2, 1, 2]),
        production(1, 8, &[1; 8]),
    ]
    .concat()
}

/// Inputs of the three sizes, and small ones to measure growth from.
pub struct Inputs {
    /// One of each size.
    pub sizes: [Vec<u8>; 3],
    /// Different ones of the middle size, together with about the bytes of the largest.
    pub small: Vec<Vec<u8>>,
}

impl Inputs {
    /// Makes all inputs by a function of the bytes, about, and of a seed.
    pub fn new(make: impl Fn(usize, u64) -> Vec<u8>) -> Inputs {
        let sizes = SIZES.map(|(_, bytes)| make(bytes, SEED));
        let (mut small, mut left) = (Vec::new(), sizes[2].len());
        for seed in SEED + 1.. {
            let input = make(SIZES[1].1, seed);
            if left < input.len() / 2 {
                break;
            }
            left = left.saturating_sub(input.len());
            small.push(input);
        }
        Inputs { sizes, small }
    }

    /// The input of the largest size.
    pub fn large(&self) -> &[u8] {
        &self.sizes[2]
    }
}

/// The seed of the trees that are the only ones of their size.
pub const SEED: u64 = 1;

/// A tree of kind 1 with about so many bytes, wide and mixed; another seed gives another tree.
pub fn wide_tree(bytes: usize, seed: u64) -> Vec<u8> {
    let first = tree_for(bytes, seed).len();
    tree_for(bytes * bytes / first, seed)
}

/// A tree of kind 1 with somewhat fewer bytes than asked for.
fn tree_for(bytes: usize, seed: u64) -> Vec<u8> {
    let mut tree = Vec::new();
    put_wide(&mut Random::new(seed), bytes, 60, &mut tree);
    tree
}

/// Appends a tree of about so many bytes with at most so many levels.
fn put_wide(random: &mut Random, bytes: usize, levels: usize, tree: &mut Vec<u8>) {
    if bytes < 8 || levels < 3 {
        return put_leaf(random, tree);
    }
    match random.below(if bytes < 16 { 3 } else { 4 }) {
        0 => {
            tree.push(3);
            put_token(random, tree);
            put_wide(random, bytes - 5, levels - 1, tree);
            put_token(random, tree);
        }
        1 | 2 => {
            tree.push(2);
            put_wide(random, (bytes - 1) / 2, levels - 1, tree);
            put_wide(random, bytes - 1 - (bytes - 1) / 2, levels - 1, tree);
        }
        _ => {
            tree.push(8);
            for _ in 0..8 {
                put_wide(random, (bytes - 1) / 8, levels - 1, tree);
            }
        }
    }
}

/// Appends a leaf or a token under a production.
fn put_leaf(random: &mut Random, tree: &mut Vec<u8>) {
    if random.percent(40) {
        tree.push(0);
    } else {
        tree.push(1);
        put_token(random, tree);
    }
}

/// Appends a token.
fn put_token(random: &mut Random, tree: &mut Vec<u8>) {
    tree.extend_from_slice(&(random.bits() as u16).to_be_bytes());
}

pub mod runs {
    use super::{field, production, tree_language};

    /// A translation of the tree language into itself with these five codes.
    fn translation(codes: [&[u8]; 5]) -> Vec<u8> {
        let mut bytes = [field(0x20, &tree_language()), field(0x21, &tree_language())].concat();
        bytes.extend(field(0x22, &[1, 1]));
        bytes.extend(field(0x22, &[2, 2]));
        for (name, code) in [0, 1, 2, 3, 8].into_iter().zip(codes) {
            bytes.extend(field(0x23, &[&[1, name], code].concat()));
        }
        bytes
    }

    const LEAF: &[u8] = &[1, 0];
    const ONE: &[u8] = &[1, 1, 3, 1];
    const TWO: &[u8] = &[1, 2, 3, 1, 3, 2];
    const THREE: &[u8] = &[1, 3, 3, 1, 3, 2, 3, 3];
    const EIGHT: &[u8] = &[1, 8, 3, 1, 3, 2, 3, 3, 3, 4, 3, 5, 3, 6, 3, 7, 3, 8];

    /// The identity.
    pub fn identity() -> Vec<u8> {
        translation([LEAF, ONE, TWO, THREE, EIGHT])
    }

    /// Each token under a production is doubled.
    pub fn doubling() -> Vec<u8> {
        translation([LEAF, &[1, 2, 1, 1, 3, 1, 1, 1, 3, 1], TWO, THREE, EIGHT])
    }

    /// The arguments of each production with more than one are reversed.
    pub fn swapping() -> Vec<u8> {
        let eight = [1, 8, 3, 8, 3, 7, 3, 6, 3, 5, 3, 4, 3, 3, 3, 2, 3, 1];
        translation([LEAF, ONE, &[1, 2, 3, 2, 3, 1], &[1, 3, 3, 3, 3, 2, 3, 1], &eight])
    }

    /// The first of two arguments and every second of eight are dropped.
    pub fn dropping() -> Vec<u8> {
        let eight = [1, 8, 3, 2, 1, 0, 3, 4, 1, 0, 3, 6, 1, 0, 3, 8, 1, 0];
        translation([LEAF, ONE, &[3, 2], THREE, &eight])
    }

    /// The tree language with a production 1.4 of one argument, into itself: 1.4 becomes a pair of its
    /// argument, the first of a pair is dropped.
    pub fn dropping_doubled() -> Vec<u8> {
        let source = [
            field(0x11, &[2, 0, 0, 0xFF, 0xFF]),
            production(1, 0, &[]),
            production(1, 1, &[2]),
            production(1, 2, &[1, 1]),
            production(1, 4, &[1]),
        ];
        let mut bytes = field(0x20, &source.concat());
        bytes.extend(field(0x21, &tree_language()));
        bytes.extend([[1, 1], [2, 2]].map(|kinds| field(0x22, &kinds)).concat());
        let codes: [(u8, &[u8]); 4] = [(0, LEAF), (1, ONE), (2, &[3, 2]), (4, &[1, 2, 3, 1, 3, 1])];
        for (name, code) in codes {
            bytes.extend(field(0x23, &[&[1, name], code].concat()));
        }
        bytes
    }

    /// A tree of exactly so many bytes, an odd number, and few levels.
    pub fn flat(bytes: usize) -> Vec<u8> {
        let mut tree = Vec::new();
        put_flat(bytes, &mut tree);
        tree
    }

    /// A tree of 60 levels: links with two tokens each and a leaf.
    pub fn chain_tree() -> Vec<u8> {
        let mut tree = Vec::new();
        (0..59).for_each(|_| tree.extend_from_slice(&[3, 0, 1]));
        tree.push(0);
        (0..59).for_each(|_| tree.extend_from_slice(&[0, 2]));
        tree
    }

    /// A tree of few levels with as many bytes as the chain.
    pub fn flat_tree() -> Vec<u8> {
        let bytes = chain_tree().len();
        let mut tree = vec![3, 0, 1];
        put_flat(bytes - 5, &mut tree);
        tree.extend_from_slice(&[0, 2]);
        tree
    }

    /// Appends a tree of exactly so many bytes, an odd number, and few levels.
    fn put_flat(bytes: usize, tree: &mut Vec<u8>) {
        match bytes {
            1 => tree.push(0),
            3 => tree.extend_from_slice(&[1, 0, 7]),
            _ => {
                let left = ((bytes - 1) / 2) | 1;
                tree.push(2);
                put_flat(left, tree);
                put_flat(bytes - 1 - left, tree);
            }
        }
    }
}

pub mod packs {
    use super::{field, full_language, production};
    use reference::files::pack;
    use reference::generate::{reduce_case, Random};

    /// So many packs of the generator are looked through.
    const PACKS: usize = 20_000;

    /// The largest accepted pack that the generator finds whose term starts with the sign.
    pub fn largest(sign: u8) -> Vec<u8> {
        let mut random = Random::new(1);
        let mut largest = Vec::new();
        for _ in 0..PACKS {
            let pack = reduce_case(&mut random).pack;
            if pack.len() > largest.len() && first_sign(&pack) == Some(sign) && accepts(&pack) {
                largest = pack;
            }
        }
        largest
    }

    /// The first sign of a pack's term, if the fields before it are whole.
    fn first_sign(pack: &[u8]) -> Option<u8> {
        let mut rest = pack;
        while let [tag, high, low, behind @ ..] = rest {
            if *tag == 0x32 {
                return behind.first().copied();
            }
            rest = behind.get(usize::from(u16::from_be_bytes([*high, *low]))..)?;
        }
        None
    }

    /// Whether the reference accepts a pack.
    fn accepts(pack: &[u8]) -> bool {
        reference::reduce(pack, &mut [0; 65_536], &mut [0; 4096]).number() == 0
    }

    /// The example of 71 bytes.
    pub fn example() -> Vec<u8> {
        let class = field(0x11, &[2, 0, 1, 0, 240]);
        let rows = [production(1, 1, &[2]), production(1, 2, &[1, 1]), production(1, 3, &[2])];
        let body = [field(0x22, &[1, 1]), field(0x23, &[1, 4, 1, 2, 3, 1, 3, 1])].concat();
        let languages = [production(1, 4, &[1]), [class, rows.concat()].concat()];
        pack(&languages, &[body], &[0x53, 0x50, 0x40, 0, 0x40, 1, 0, 0x55, 0x40, 1])
    }

    /// The identity of a language of 1,024 bytes.
    pub fn identity() -> Vec<u8> {
        pack(&[full_language()], &[], &[0x55, 0x40, 0])
    }

    /// Kind 1 with names 0, 1 and 2 and as many arguments.
    fn counting() -> Vec<u8> {
        [production(1, 0, &[]), production(1, 1, &[1]), production(1, 2, &[1, 1])].concat()
    }

    /// Code over the counting language with so many nodes and few levels.
    fn wide_code(nodes: usize) -> Vec<u8> {
        match nodes {
            1 => vec![1, 0],
            2 => vec![1, 1, 1, 0],
            _ => {
                let left = (nodes - 1) / 2;
                [vec![1, 2], wide_code(left), wide_code(nodes - 1 - left)].concat()
            }
        }
    }

    /// A language of kind 3 with so many productions, and a body with codes of so many nodes.
    fn block(names: std::ops::Range<u8>, nodes: usize) -> (Vec<u8>, Vec<u8>) {
        let language = names.clone().flat_map(|name| production(3, name, &[])).collect();
        let clauses = names.map(|name| field(0x23, &[&[3, name], &wide_code(nodes)[..]].concat()));
        (language, [vec![field(0x22, &[3, 1])], clauses.collect()].concat().concat())
    }

    /// The sum of two translations whose value has about 4,090 bytes.
    pub fn sum() -> Vec<u8> {
        let (left, left_body) = block(0..95, 5);
        let (right, right_body) = block(95..196, 5);
        let languages = [left, right, counting()];
        let term = [0x53, 0x50, 0x40, 0, 0x40, 2, 0, 0x50, 0x40, 1, 0x40, 2, 1];
        pack(&languages, &[left_body, right_body], &term)
    }

    /// A join through a clause that swaps; its value has about 4,090 bytes.
    pub fn join() -> Vec<u8> {
        let (source, body) = block(0..40, 45);
        let clauses = [&[1, 0, 1, 0][..], &[1, 1, 3, 1], &[1, 2, 3, 2, 3, 1]];
        let names = 0..3;
        let clauses = names.zip(clauses).map(|(name, code)| {
            let code = if name == 0 { &code[2..] } else { code };
            field(0x23, &[&[1, name], code].concat())
        });
        let swap = [vec![field(0x22, &[1, 1])], clauses.collect()].concat().concat();
        let term = [0x54, 0x50, 0x40, 1, 0x40, 1, 1, 0x50, 0x40, 0, 0x40, 1, 0];
        pack(&[source, counting()], &[body, swap], &term)
    }

    /// Twelve levels: a let, and sums of its variable as a full tree.
    pub fn nested_sums() -> Vec<u8> {
        let (source, body) = block(0..95, 5);
        let mut term = vec![0x57, 0, 0x50, 0x40, 0, 0x40, 1, 0];
        put_sums(10, &mut term);
        pack(&[source, counting()], &[body], &term)
    }

    /// Appends sums of variable 0, so many levels above the variables.
    fn put_sums(levels: usize, term: &mut Vec<u8>) {
        if levels == 0 {
            return term.extend_from_slice(&[0x51, 0]);
        }
        term.push(0x53);
        put_sums(levels - 1, term);
        put_sums(levels - 1, term);
    }
}
