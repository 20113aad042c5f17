//! The nodes of a plan agree with what the library answers of each, and faults are where they are.

use algebra::write::{production, token, LanguageBuilder};
use algebra::{
    check_tree, index_to_vec, locate, Index, Kind, Language, Node, Plan, Refusal, Tree, TreeFault,
    TREE_LEVELS,
};

const BLOCK: Kind = Kind(1);
const MINUTES: Kind = Kind(2);
const NOTHING: u8 = 0;
const ROW: u8 = 1;
const SEQUENCE: u8 = 2;
const TRIPLE: u8 = 3;

/// Nothing, a row, a sequence of two blocks, and one of three with minutes between.
fn language() -> Vec<u8> {
    LanguageBuilder::new()
        .class(MINUTES, 1..=240)
        .production(BLOCK, NOTHING, &[])
        .production(BLOCK, ROW, &[MINUTES])
        .production(BLOCK, SEQUENCE, &[BLOCK, BLOCK])
        .production(BLOCK, TRIPLE, &[BLOCK, MINUTES, BLOCK, MINUTES, BLOCK])
        .build()
        .expect("a language")
}

fn row(minutes: u16) -> Vec<u8> {
    production(ROW, [token(minutes)])
}

/// A row in so many sequences, each with nothing behind it.
fn chain(levels: usize) -> Vec<u8> {
    (1..levels).fold(row(5), |block, _| production(SEQUENCE, [block, production(NOTHING, [])]))
}

/// Some trees: small, with all words, and as deep as may be.
fn trees() -> Vec<Vec<u8>> {
    let triple = production(TRIPLE, [row(1), token(2), row(3), token(4), production(NOTHING, [])]);
    let mixed = production(SEQUENCE, [triple.clone(), production(SEQUENCE, [row(5), triple])]);
    vec![production(NOTHING, []), row(240), mixed, chain(TREE_LEVELS)]
}

#[test]
fn nodes_are_what_the_library_finds_at_their_paths() {
    let language = language();
    for tree in trees() {
        let index = index_to_vec(Language(&language), BLOCK, Tree(&tree)).expect("an index");
        let plan = Plan::new(Language(&language), BLOCK, Tree(&tree), Index(&index));
        let plan = plan.expect("a plan");
        let entries = index.chunks(4);
        assert_eq!(plan.nodes().len(), entries.len());
        for (node, entry) in plan.nodes().zip(entries) {
            let (start, length) = (node.start() as u16, node.bytes().len() as u16);
            assert_eq!([start.to_be_bytes(), length.to_be_bytes()].concat(), entry);
            let block = plan.block(node.path()).expect("a block");
            assert_eq!((block.bytes, block.start), (node.bytes(), node.start()));
            assert_eq!((block.kind, node.depth()), (node.kind(), node.path().0.len()));
            assert_eq!(plan.node(node.path()), Ok(node.node()));
            assert_eq!(node.value().is_some(), matches!(node.node(), Node::Token { .. }));
        }
    }
}

#[test]
fn paths_come_in_reading_order() {
    let (language, tree) = (language(), production(SEQUENCE, [row(5), row(7)]));
    let index = index_to_vec(Language(&language), BLOCK, Tree(&tree)).expect("an index");
    let plan = Plan::new(Language(&language), BLOCK, Tree(&tree), Index(&index)).expect("a plan");
    let paths: Vec<Vec<u8>> = plan.nodes().map(|node| node.path().0.to_vec()).collect();
    assert_eq!(paths, [vec![], vec![1], vec![1, 1], vec![2], vec![2, 1]]);
    let values: Vec<Option<u16>> = plan.into_iter().map(|node| node.value()).collect();
    assert_eq!(values, [None, None, Some(5), None, Some(7)]);
    let mut nodes = plan.nodes();
    assert_eq!(nodes.by_ref().count(), 5);
    assert!(nodes.next().is_none() && nodes.next().is_none());
}

#[test]
fn nodes_are_equal_whatever_came_before_them() {
    let (language, nothing) = (language(), || production(NOTHING, []));
    let language = Language(&language);
    // First blocks of 3 bytes and 1 or 2 arguments.
    let firsts = [row(5), production(SEQUENCE, [nothing(), nothing()])];
    let trees = firsts.map(|first| production(SEQUENCE, [first, row(7)]));
    let indexes =
        trees.each_ref().map(|tree| index_to_vec(language, BLOCK, Tree(tree)).expect("an index"));
    let plan = |at: usize| Plan::new(language, BLOCK, Tree(&trees[at]), Index(&indexes[at]));
    let (one, other) = (plan(0).expect("a plan"), plan(1).expect("a plan"));
    let second = |node: &algebra::PlanNode| node.path().0 == [2];
    assert!(one.nodes().any(|node| second(&node)));
    assert_eq!(one.nodes().find(second), other.nodes().find(second));
    assert_eq!(one.nodes().last(), other.nodes().last());
}

#[test]
fn a_plan_is_checked_with_its_index() {
    let (language, tree) = (language(), row(5));
    let index = index_to_vec(Language(&language), BLOCK, Tree(&tree)).expect("an index");
    let refusal = |root, tree: &[u8], index: &[u8]| {
        Plan::new(Language(&language), root, Tree(tree), Index(index)).err()
    };
    assert_eq!(refusal(BLOCK, &tree, &index), None);
    assert_eq!(refusal(Kind(9), &tree, &index), Some(Refusal::UnknownRoot));
    assert_eq!(refusal(BLOCK, &tree[..2], &index), Some(Refusal::IllegalTree));
    assert_eq!(refusal(BLOCK, &tree, &[]), Some(Refusal::NotIndexed));
}

#[test]
fn a_plan_of_a_token_alone_has_one_node() {
    let (language, tree) = (language(), token(5));
    let index = index_to_vec(Language(&language), MINUTES, Tree(&tree)).expect("an index");
    let plan = Plan::new(Language(&language), MINUTES, Tree(&tree), Index(&index)).expect("a plan");
    let nodes: Vec<_> = plan.nodes().collect();
    assert_eq!((nodes.len(), nodes[0].value(), nodes[0].depth()), (1, Some(5), 0));
}

#[test]
fn faults_are_where_reading_stopped() {
    let language = language();
    let fault = |tree: &[u8]| locate(Language(&language), BLOCK, Tree(tree));
    let at = |tree: &[u8]| fault(tree).and_then(TreeFault::position);
    assert_eq!(fault(&row(5)), None);
    // An unknown word, a token out of range, ends that come too early, and a byte left over.
    assert_eq!(at(&[SEQUENCE, ROW, 0, 5, 9]), Some(4));
    assert_eq!(at(&production(SEQUENCE, [row(5), row(241)])), Some(5));
    assert_eq!(at(&[]), Some(0));
    assert_eq!(at(&[ROW, 0]), Some(2));
    assert_eq!(at(&[SEQUENCE, ROW, 0, 5]), Some(4));
    assert_eq!(at(&[ROW, 0, 5, 7]), Some(3));
    let deep = fault(&chain(TREE_LEVELS + 1)).expect("a fault");
    assert_eq!((deep.refusal(), deep.position()), (Refusal::TooDeep, Some(TREE_LEVELS)));
}

#[test]
fn a_check_gives_the_fault_that_is_located() {
    let language = language();
    let cases = [vec![], row(5), row(0), chain(64), chain(65), [row(5), row(5)].concat()];
    for (root, tree) in [(BLOCK, &[][..]), (Kind(7), &[])]
        .into_iter()
        .chain(cases.iter().map(|tree| (BLOCK, &tree[..])))
    {
        let checked = check_tree(Language(&language), root, Tree(tree));
        assert_eq!(checked.err(), locate(Language(&language), root, Tree(tree)));
    }
    let broken = check_tree(Language(&[1]), BLOCK, Tree(&[])).unwrap_err();
    assert_eq!(broken.to_string(), Refusal::BrokenField.sentence());
    assert_eq!((Refusal::from(broken), broken.position()), (Refusal::BrokenField, None));
}

#[test]
fn values_can_be_sent_to_other_threads() {
    fn sent<T: Send + Sync>() {}
    sent::<(Plan, algebra::Nodes, algebra::PlanNode, TreeFault, Refusal)>();
}
