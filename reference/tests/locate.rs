//! Where trees are at fault: each way by hand, all short inputs of small languages against all of
//! their trees, and what holds of every position.

mod build;

use build::*;
use reference::explain;
use reference::generate::{botched_case, Random, TreeCase};
use reference::{check_tree, locate};

/// Class 2 of 5 to 9; kind 1: a leaf 0, a link 1 to itself, 2 with a token, 3 with tokens around, and
/// 4 and 5 with an undefined kind, first or behind a token.
fn language() -> Vec<u8> {
    let productions = [&[][..], &[1], &[2], &[2, 1, 2, 1, 2], &[3], &[2, 3]];
    let productions = (0..).zip(productions).map(|(name, of)| production(1, name, of));
    [vec![class(2, 5, 9)], productions.collect()].concat().concat()
}

/// The number and the position for a tree of a root kind.
fn found_by(language: &[u8], root: u32, tree: &[u8]) -> (u32, u64) {
    let located = locate(language, root, tree);
    assert_eq!(located.outcome.length(), 0);
    (located.outcome.number(), located.position)
}

/// The number and the position for a tree of kind 1.
fn found(tree: &[u8]) -> (u32, u64) {
    found_by(&language(), 1, tree)
}

#[test]
fn accepted_trees_have_no_position() {
    for tree in [&[0][..], &[1, 0], &[2, 0, 9], &[3, 0, 5, 2, 0, 6, 0, 7, 1, 0, 0, 9]] {
        assert_eq!(found(tree), (0, 0), "{tree:?}");
    }
    assert_eq!(found_by(&language(), 2, &[0, 5]), (0, 0));
}

#[test]
fn refusals_before_the_tree_have_no_position() {
    let tree = [9, 9, 9];
    assert_eq!(found_by(&[0; 1025], 1, &tree), (1, 0));
    assert_eq!(found_by(&[0x12], 1, &tree), (2, 0));
    assert_eq!(found_by(&[language(), class(2, 5, 9)].concat(), 1, &tree), (3, 0));
    assert_eq!(found_by(&[class(1, 5, 9), language()[8..].to_vec()].concat(), 1, &tree), (4, 0));
    assert_eq!(found_by(&language(), 4, &tree), (14, 0));
    assert_eq!(found_by(&language(), 256 + 1, &tree), (14, 0));
    assert_eq!(found_by(&[], 0, &[]), (14, 0));
}

#[test]
fn an_unknown_name_is_found_where_it_stands() {
    assert_eq!(found(&[6]), (15, 0));
    assert_eq!(found(&[1, 1, 255, 0, 5]), (15, 2));
    assert_eq!(found(&[3, 0, 5, 99, 0, 6]), (15, 3));
    assert_eq!(found(&[3, 0, 5, 2, 0, 6, 0, 7, 99, 0, 9]), (15, 8));
}

#[test]
fn a_token_out_of_range_is_found_where_it_starts() {
    assert_eq!(found(&[2, 0, 4]), (15, 1));
    assert_eq!(found(&[2, 0, 10]), (15, 1));
    assert_eq!(found(&[2, 1, 5]), (15, 1));
    assert_eq!(found(&[3, 0, 5, 0, 0, 10, 99]), (15, 4));
    assert_eq!(found_by(&language(), 2, &[1, 5, 5]), (15, 0));
    let fives = [stepped_class(2, 100, 200, 5), production(1, 2, &[2])].concat();
    assert_eq!(found_by(&fives, 1, &[2, 0, 101]), (15, 1));
    assert_eq!(found_by(&fives, 1, &[2, 0, 105]), (0, 0));
}

#[test]
fn an_undefined_kind_is_found_where_it_would_stand() {
    assert_eq!(found(&[4]), (15, 1));
    assert_eq!(found(&[4, 0]), (15, 1));
    assert_eq!(found(&[1, 4, 0, 0, 0]), (15, 2));
    assert_eq!(found(&[5, 0, 5]), (15, 3));
    assert_eq!(found(&[5, 0, 5, 77, 77]), (15, 3));
    assert_eq!(found(&[5, 0, 4, 77, 77]), (15, 1));
    assert_eq!(found_by(&language(), 3, &[]), (15, 0));
    assert_eq!(found_by(&language(), 3, &[0, 0]), (15, 0));
}

#[test]
fn input_that_ends_is_found_at_its_end() {
    assert_eq!(found(&[]), (15, 0));
    assert_eq!(found(&[1, 1]), (15, 2));
    assert_eq!(found(&[2]), (15, 1));
    assert_eq!(found(&[2, 0]), (15, 2));
    assert_eq!(found(&[2, 255]), (15, 2));
    assert_eq!(found(&[3, 0, 5, 0, 0]), (15, 5));
    assert_eq!(found(&[3, 0, 5, 0, 0, 6]), (15, 6));
    assert_eq!(found_by(&language(), 2, &[]), (15, 0));
    assert_eq!(found_by(&language(), 2, &[0]), (15, 1));
}

#[test]
fn leftovers_are_found_behind_the_tree() {
    assert_eq!(found(&[0, 0]), (15, 1));
    assert_eq!(found(&[2, 0, 5, 99, 99]), (15, 3));
    assert_eq!(found_by(&language(), 2, &[0, 5, 0]), (15, 2));
    assert_eq!(found(&[&[1; 63][..], &[2, 0, 5, 1]].concat()), (15, 66));
}

#[test]
fn too_many_levels_are_found_where_the_next_is_reached() {
    let deep = |links: usize, end: &[u8]| found(&[&vec![1; links][..], end].concat());
    assert_eq!(deep(63, &[0]), (0, 0));
    assert_eq!(deep(63, &[2, 0, 5]), (0, 0));
    assert_eq!(deep(63, &[]), (15, 63));
    assert_eq!(deep(63, &[6]), (15, 63));
    assert_eq!(deep(63, &[2, 0]), (15, 65));
    for end in [&[][..], &[0], &[6], &[2, 0, 5], &[1; 1000]] {
        assert_eq!(deep(64, end), (16, 64), "{end:?}");
    }
    for end in [&[4][..], &[4, 0]] {
        assert_eq!(deep(63, end), (16, 64), "an undefined kind is a level too: {end:?}");
    }
    assert_eq!(deep(63, &[5, 0, 5]), (16, 66));
    assert_eq!(deep(63, &[5, 0, 4]), (15, 64));
    assert_eq!(deep(62, &[4]), (15, 63));
    assert_eq!(found(&[&[3, 0, 5, 1, 0, 0, 6][..], &[1; 63]].concat()), (16, 70));
}

#[test]
fn the_first_of_two_faults_is_found() {
    assert_eq!(found(&[&[3, 0, 4, 1, 0, 0, 6][..], &[1; 70]].concat()), (15, 1));
    assert_eq!(found(&[&[3, 0, 5][..], &[1; 70], &[0, 0, 4]].concat()), (16, 66));
}

/// A node of a small language, by its own bytes: a name or a token.
type Node = Vec<u8>;

/// The nodes of a tree in reading order. The last one is missing where its kind is undefined, and what
/// would follow it is too.
#[derive(Clone, Debug)]
struct Row {
    nodes: Vec<Node>,
    stuck: bool,
}

/// A small language: tokens of kind 2 by their values, and productions by result and name.
struct Small {
    tokens: Vec<u16>,
    productions: Vec<(u8, u8, Vec<u8>)>,
}

impl Small {
    /// The bytes of the language.
    fn language(&self) -> Vec<u8> {
        let ends = (self.tokens[0], self.tokens[self.tokens.len() - 1]);
        let productions = self.productions.iter();
        let productions = productions.map(|(kind, name, of)| production(*kind, *name, of));
        [vec![class(2, ends.0, ends.1)], productions.collect()].concat().concat()
    }

    /// All trees of a kind with at most so many levels, made and not read.
    fn rows(&self, kind: u8, levels: usize) -> Vec<Row> {
        if kind == 2 {
            let nodes = self.tokens.iter().map(|value| vec![value.to_be_bytes().to_vec()]);
            return nodes.map(|nodes| Row { nodes, stuck: false }).collect();
        }
        let productions = self.productions.iter().filter(|(result, ..)| *result == kind);
        if productions.clone().count() == 0 {
            return vec![Row { nodes: vec![], stuck: true }];
        }
        let some = productions.filter(|_| levels > 0);
        some.flat_map(|(_, name, of)| self.rows_of(*name, of, levels - 1)).collect()
    }

    /// All trees of a production whose arguments have at most so many levels.
    fn rows_of(&self, name: u8, arguments: &[u8], levels: usize) -> Vec<Row> {
        let first = vec![Row { nodes: vec![vec![name]], stuck: false }];
        arguments.iter().fold(first, |rows, &kind| {
            let next = self.rows(kind, levels);
            let both = |row: &Row| -> Vec<Row> {
                let with = |behind: &Row| Row {
                    nodes: [&row.nodes[..], &behind.nodes].concat(),
                    stuck: behind.stuck,
                };
                if row.stuck {
                    vec![row.clone()]
                } else {
                    next.iter().map(with).collect()
                }
            };
            rows.iter().flat_map(both).collect()
        })
    }
}

/// How far an input follows a row: the bytes of the nodes that it has whole, and the next node.
fn followed<'a>(row: &'a Row, input: &[u8]) -> (usize, Option<&'a Node>) {
    let mut at = 0;
    for node in &row.nodes {
        if !input[at..].starts_with(node) {
            return (at, Some(node));
        }
        at += node.len();
    }
    (at, None)
}

/// The answer for an input by all trees that there are: the one that it follows furthest tells what
/// would have to come next.
fn expected(rows: &[Row], input: &[u8]) -> (u32, u64) {
    let follows = rows.iter().map(|row| (followed(row, input), row.stuck));
    let ((at, next), stuck) = follows.max_by_key(|((at, _), _)| *at).expect("there is a row");
    match next {
        None if at == input.len() && !stuck => (0, 0),
        Some(node) if at + node.len() > input.len() => (15, input.len() as u64),
        _ => (15, at as u64),
    }
}

/// All inputs of these bytes, up to a length.
fn inputs(bytes: &[u8], most: usize) -> Vec<Vec<u8>> {
    let longer = |list: &Vec<Vec<u8>>| -> Vec<Vec<u8>> {
        list.iter()
            .flat_map(|input| bytes.iter().map(|&byte| [&input[..], &[byte]].concat()))
            .collect()
    };
    let mut all = vec![vec![vec![]]];
    for length in 0..most {
        all.push(longer(&all[length]));
    }
    all.concat()
}

/// Compares all short inputs of a small language with all of its trees, and counts the answers of
/// each number.
fn compare_all(small: &Small, levels: usize, bytes: &[u8], most: usize) -> [usize; 2] {
    let (language, rows) = (small.language(), small.rows(1, levels));
    let mut counts = [0; 2];
    for input in inputs(bytes, most) {
        let (number, position) = found_by(&language, 1, &input);
        assert_eq!((number, position), expected(&rows, &input), "{input:?}");
        assert!(number == 0 || no_tree_begins(&rows, &input, position as usize), "{input:?}");
        counts[usize::from(number != 0)] += 1;
    }
    counts
}

/// Whether no tree begins with the bytes up to a position and the two behind it, or all there are; a
/// tree that ends at the position, or goes on where the input ends, is none of these.
fn no_tree_begins(rows: &[Row], input: &[u8], position: usize) -> bool {
    let until = &input[..input.len().min(position + 2)];
    let whole = rows.iter().filter(|row| !row.stuck);
    let mut begins = whole.filter(|row| row.nodes.concat().starts_with(until));
    begins.all(|row| position == input.len() && row.nodes.concat().len() > input.len())
}

#[test]
fn all_short_inputs_of_a_small_language() {
    let small = Small {
        tokens: vec![1, 2, 3],
        productions: vec![
            (1, 0, vec![]),
            (1, 1, vec![2]),
            (1, 2, vec![3, 2]),
            (1, 4, vec![3]),
            (3, 0, vec![]),
            (3, 5, vec![2, 3]),
        ],
    };
    let [accepted, refused] = compare_all(&small, 4, &[0, 1, 2, 3, 4, 5], 6);
    assert!(accepted > 10 && refused > 50_000, "{accepted} {refused}");
}

#[test]
fn all_short_inputs_where_a_kind_is_undefined() {
    let small = Small {
        tokens: vec![0, 1],
        productions: vec![
            (1, 0, vec![2]),
            (1, 1, vec![4]),
            (1, 2, vec![2, 4, 2]),
            (1, 3, vec![3, 4]),
            (3, 1, vec![]),
            (3, 2, vec![4]),
        ],
    };
    let [accepted, refused] = compare_all(&small, 3, &[0, 1, 2, 3], 7);
    assert!(accepted == 2 && refused > 20_000, "{accepted} {refused}");
}

#[test]
fn all_short_inputs_of_links() {
    let small = Small {
        tokens: vec![1],
        productions: vec![(1, 0, vec![]), (1, 1, vec![2]), (1, 4, vec![1])],
    };
    let [accepted, refused] = compare_all(&small, 12, &[0, 1, 2, 4], 8);
    assert!(accepted > 10 && refused > 80_000, "{accepted} {refused}");
}

/// Bytes that do not matter.
fn any_bytes(random: &mut Random) -> Vec<u8> {
    (0..random.below(5)).map(|_| random.byte()).collect()
}

/// What every position of an unfit tree must be: any shorter input ends too early at its own end,
/// and what stands behind the unfit node is not looked at.
fn check_position(random: &mut Random, case: &TreeCase, number: u32, position: usize) {
    let TreeCase { language, root, tree } = case;
    let by = |tree: &[u8]| found_by(language, *root, tree);
    for cut in [0, position / 2, position.saturating_sub(1), random.below(position + 1)] {
        if cut < position {
            assert_eq!(by(&tree[..cut]), (15, cut as u64), "cut at {cut}: {case:?}");
        }
    }
    let kept = if number == 16 { position } else { tree.len().min(position + 2) };
    let other = [&tree[..kept], &any_bytes(random)].concat();
    if number == 16 || position + 2 <= tree.len() {
        assert_eq!(by(&other), (number, position as u64), "other bytes behind: {case:?}");
    }
}

/// Whether the fault that is explained is that of a token in which the input ends: it is told where
/// the token starts.
fn ends_in_token(what: &str) -> bool {
    what.starts_with("the tree ends in a token")
}

#[test]
fn positions_hold_and_every_answer_is_reached() {
    let (mut random, mut counts) = (Random::new(31), [0; 17]);
    let mut leftovers = 0;
    for _ in 0..20_000 {
        let case = botched_case(&mut random);
        let TreeCase { language, root, tree } = &case;
        let (number, position) = found_by(language, *root, tree);
        assert_eq!(number, check_tree(language, *root, tree).number(), "{case:?}");
        counts[number as usize] += 1;
        if ![15, 16].contains(&number) {
            assert_eq!(position, 0, "{case:?}");
            continue;
        }
        check_position(&mut random, &case, number, position as usize);
        leftovers +=
            usize::from(check_tree(language, *root, &tree[..position as usize]).number() == 0);
        let fault = explain::tree(language, *root, tree).expect("a refused tree has a fault");
        let told = if ends_in_token(&fault.what) { Some(tree.len()) } else { fault.byte };
        assert_eq!(told, Some(position as usize), "{case:?}: {fault:?}");
    }
    for (number, &count) in counts.iter().enumerate() {
        let possible = [0, 1, 2, 3, 4, 14, 15, 16].contains(&number);
        assert_eq!(count >= 20, possible, "{number}: {counts:?}");
    }
    assert!(counts[15] > 5000 && leftovers > 200, "{counts:?}, {leftovers}");
}
