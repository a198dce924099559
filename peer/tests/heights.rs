//! Heights and their refusals as document 02 (U6) has them, in figures.

use peer::call::{Call, Operation};
use peer::cases::examples::{alphabet, expression, tree, A, B, F, G};
use peer::cases::heights::{exchange, run};
use peer::cases::shapes::{
    chain, chain_beside_low, chain_over_low, comb, combs, deepest, depth, low, low_height, shape_children,
};
use peer::chance::Random;
use peer::generate;
use peer::limits::HEIGHT_LIMIT;
use peer::marklist::{encode, expected};
use peer::postfix::{self, heights, tree_children, tree_height};
use peer::refusals::{self, Condition};
use peer::words::{arities, node_word, symbols};

#[test]
fn a_subtree_has_another_height() {
    let own = arities(&alphabet());
    let source = tree_children(&symbols(&tree()), &own);
    assert_eq!(heights(&source), [1, 1, 2, 1, 2, 3, 4]);
    for (tree, height) in [
        (vec![A], 1),
        (vec![A, G], 2),
        (vec![A, B, F], 2),
        (vec![A, G, B, F], 3),
        (vec![A, B, G, F], 3),
        (vec![A, G, B, G, F], 3),
        (vec![A, G, G, B, F, G, A, F], 6),
    ] {
        assert_eq!(tree_height(&tree, &own), height, "{tree:?}");
    }
}

#[test]
fn the_greatest_height_is_another() {
    assert_eq!(HEIGHT_LIMIT, 512);
    for (height, numbers) in [(1, vec![]), (511, vec![]), (512, vec![]), (513, vec![24])] {
        assert_eq!(numbers_of(&run(&chain(height))), numbers);
        assert_eq!(numbers_of(&exchange(&chain(height), height - 1, &[0])), numbers);
        assert_eq!(numbers_of(&exchange(&[0], 0, &chain(height))), numbers);
    }
}

fn numbers_of(call: &Call) -> Vec<u32> {
    let faults = refusals::faults(call).into_iter();
    faults.map(|condition| condition.number).collect()
}

#[test]
fn the_program_refuses_a_height() {
    for (height, begins) in [(256, "nodes 256 "), (257, "refused 9\n"), (513, "refused 9\n")] {
        let chapter = postfix::chain(node_word(A), node_word(G), height);
        let bytes = encode(&alphabet(), &expression(), &chapter);
        assert!(expected(&bytes).starts_with(begins));
    }
}

#[test]
fn the_numbers_stand_in_another_order() {
    let numbers = |operation: Operation| -> Vec<u32> {
        let conditions = refusals::conditions(operation).into_iter();
        conditions.map(|condition| condition.number).collect()
    };
    assert_eq!(numbers(Operation::Compile), [1, 2, 3, 4, 5, 6, 25, 7]);
    assert_eq!(numbers(Operation::Run), [1, 2, 8, 9, 10, 11, 24, 26, 12]);
    assert_eq!(numbers(Operation::List), [1, 2, 8, 9, 12, 13]);
    assert_eq!(
        numbers(Operation::Exchange),
        [1, 2, 8, 9, 10, 11, 24, 26, 12, 14, 15, 26, 16, 24, 27]
    );
}

#[test]
fn the_two_conditions_of_one_number_are_confused() {
    let [before, after] = [Condition::first(24), Condition::second(24)];
    let conditions = refusals::conditions(Operation::Exchange);
    assert_eq!((conditions[6], conditions[13]), (before, after));
    assert_eq!(
        (before.to_string(), after.to_string()),
        ("24".into(), "second 24".into())
    );
    let refusal = |shape: &[usize], node: usize, replacement: &[usize]| {
        refusals::refusal(&exchange(shape, node, replacement))
    };
    assert_eq!(refusal(&chain(513), 512, &[0]), Some(before));
    assert_eq!(refusal(&chain(513), 0, &[0]), Some(before));
    assert_eq!(refusal(&chain(512), 0, &[0, 1]), Some(after));
    assert_eq!(refusal(&chain(512), 0, &[0]), None);
}

fn shape_height(shape: &[usize]) -> usize {
    *heights(&shape_children(shape)).last().expect("a root")
}

#[test]
fn a_shape_is_not_as_it_is_called() {
    assert_eq!(chain(3), [0, 1, 1]);
    assert_eq!(comb(2, 0, 3), [0, 0, 2, 0, 2]);
    assert_eq!(comb(2, 1, 3), [0, 0, 0, 2, 2]);
    assert_eq!(comb(4, 2, 2), [0, 0, 0, 0, 4]);
    assert_eq!(combs().len(), 10);
    for (arity, place) in combs() {
        let children = shape_children(&comb(arity, place, 40));
        let leaf = deepest(&children);
        assert!(children[leaf].is_empty());
        assert_eq!(depth(&children, leaf), 39);
    }
    for nodes in 1..300 {
        let height = low_height(nodes);
        assert_eq!((low(nodes).len(), shape_height(&low(nodes))), (nodes, height));
        assert!(height <= 1 + nodes.ilog2() as usize);
    }
    for height in 20..60 {
        for shape in [
            chain_beside_low(600, height, true),
            chain_beside_low(600, height, false),
            chain_over_low(600, height),
        ] {
            assert_eq!((shape.len(), shape_height(&shape)), (600, height));
        }
    }
}

#[test]
fn a_drawn_tree_is_not_as_high_as_asked() {
    for case in 0..200 {
        let mut random = Random::of_case("test", 6, case);
        let alphabet = generate::alphabet_with_children(&mut random);
        let height = random.between(1, 2 * HEIGHT_LIMIT);
        let tree = generate::high_tree(&mut random, &alphabet, height);
        assert_eq!(tree_height(&tree, &arities(&alphabet)), height);
    }
}
