//! Shapes of trees, of a height and a number of nodes that are asked for: the arities of the nodes in postfix order. Over
//! the alphabet in which each symbol's number is its arity (`in_slices::of_all_arities`) a shape is a tree of symbols.

use crate::cases::examples::{A, F, G};
use crate::language::Tree;
use crate::limits::{ARITY_LIMIT, HEIGHT_LIMIT};
use crate::postfix;
use crate::words::node_word;

/// One node above the other: each has this arity, the next one below is its child at this place, and its other children are
/// leaves.
pub fn comb(arity: usize, place: usize, height: usize) -> Tree {
    let inner = height - 1;
    let mut shape = vec![0; place * inner + 1];
    for _ in 0..inner {
        shape.extend(vec![0; arity - 1 - place]);
        shape.push(arity);
    }
    shape
}

/// Every sort of comb: each arity with each place.
pub fn combs() -> Vec<(usize, usize)> {
    (1..=ARITY_LIMIT)
        .flat_map(|arity| (0..arity).map(move |place| (arity, place)))
        .collect()
}

pub fn chain(height: usize) -> Tree {
    comb(1, 0, height)
}

/// So many nodes, none or more, in a tree that is hardly higher than it must be with arities of at most 2.
pub fn low(nodes: usize) -> Tree {
    let mut shape = Vec::with_capacity(nodes);
    push_low(&mut shape, nodes);
    shape
}

fn push_low(shape: &mut Tree, nodes: usize) {
    if nodes < 3 {
        shape.extend(&[0, 1][..nodes]);
        return;
    }
    let first = (nodes - 1) / 2;
    push_low(shape, first);
    push_low(shape, nodes - 1 - first);
    shape.push(2);
}

/// How high that tree is: one more than its larger part.
pub fn low_height(nodes: usize) -> usize {
    if nodes < 3 {
        return nodes;
    }
    1 + low_height(nodes / 2)
}

/// These trees under one node.
pub fn under_one(parts: &[Tree]) -> Tree {
    [parts.concat(), vec![parts.len()]].concat()
}

/// So many nodes with this height: a chain, and a low tree beside it at the top, as the first child or the second.
pub fn chain_beside_low(nodes: usize, height: usize, is_first: bool) -> Tree {
    let mut parts = [chain(height - 1), low(nodes - height)];
    if !is_first {
        parts.reverse();
    }
    under_one(&parts)
}

/// So many nodes with this height: a chain over a low tree.
pub fn chain_over_low(nodes: usize, height: usize) -> Tree {
    let is_so_high = |above: &usize| above + low_height(nodes - above) == height;
    let above = (0..nodes).find(is_so_high).expect("a chain");
    [low(nodes - above), vec![1; above]].concat()
}

/// So many nodes with a leaf at this place, which may not be the last of more than one: what stands before
/// the leaf and behind it is made by `part`.
pub fn with_leaf(nodes: usize, place: usize, part: fn(usize) -> Tree) -> Tree {
    if place == 0 {
        return part(nodes);
    }
    let mut shape = [part(place), vec![0, 2]].concat();
    let rest = nodes - shape.len();
    if rest >= 2 {
        shape.extend(part(rest - 1));
    }
    if rest >= 1 {
        shape.push(rest.min(2));
    }
    shape
}

/// So many nodes, in a chain unless that would be too high: then it has a low tree beside it.
pub fn high(nodes: usize) -> Tree {
    const HIGH: usize = HEIGHT_LIMIT - 12;
    if nodes <= HIGH {
        return chain(nodes);
    }
    chain_beside_low(nodes, HIGH, true)
}

pub fn shape_children(shape: &[usize]) -> Vec<Vec<usize>> {
    postfix::children(shape).expect("one tree")
}

/// A leaf above which as many nodes stand as above any.
pub fn deepest(children: &[Vec<usize>]) -> usize {
    let heights = postfix::heights(children);
    let mut node = children.len() - 1;
    while let Some(highest) = children[node].iter().max_by_key(|child| heights[**child]) {
        node = *highest;
    }
    node
}

/// How many nodes stand above a node.
pub fn depth(children: &[Vec<usize>], node: usize) -> usize {
    postfix::ancestors(children, node).len()
}

/// A shape of arities up to 2 in the source's alphabet.
pub fn source_words(shape: &[usize]) -> Vec<u32> {
    shape.iter().map(|arity| node_word([A, G, F][*arity])).collect()
}
