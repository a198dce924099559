//! Inputs with holes (document 02, U8): alphabets that have some, expressions that name and fill them, and
//! trees in which they stand though they may not.

use crate::chance::Random;
use crate::generate;
use crate::kinds::HOLE;
use crate::language::Tree;
use crate::words::{self, Operator};

/// An alphabet with holes: mostly it has other constants too, sometimes it has none.
pub fn alphabet(random: &mut Random) -> Vec<u32> {
    if !random.once_in(8) {
        return mixed_alphabet(random);
    }
    let mut own = generate::alphabet(random);
    for constant in words::constants(&own) {
        own[constant] |= HOLE;
    }
    own
}

/// An alphabet with holes and other constants: one hole, or any number of them.
pub fn mixed_alphabet(random: &mut Random) -> Vec<u32> {
    loop {
        let mut own = generate::alphabet(random);
        let mut constants = words::constants(&own);
        if constants.len() < 2 {
            continue;
        }
        let holes = if random.once_in(3) {
            1
        } else {
            random.between(1, constants.len() - 1)
        };
        for _ in 0..holes {
            let place = random.below(constants.len());
            own[constants.swap_remove(place)] |= HOLE;
        }
        return own;
    }
}

/// The alphabet with its holes as other constants.
pub fn without_marks(alphabet: &[u32]) -> Vec<u32> {
    alphabet.iter().map(|word| word & !HOLE).collect()
}

/// The operators of an expression over an alphabet with holes. Behind one that holds and names them follow
/// products by which trees without holes take the place of most: otherwise few languages would have members
/// without holes.
pub fn operators(random: &mut Random, alphabet: &[u32], budget: usize) -> Vec<Operator> {
    let spare = random.between(2, 6).min(budget - 1);
    let mut operators = generate::operators(random, alphabet, budget - spare);
    if words::leaves(alphabet).is_empty() {
        return operators;
    }
    for hole in words::holes(alphabet) {
        let stands = operators
            .iter()
            .any(|operator| [Operator::Symbol(hole), Operator::Closure(hole)].contains(operator));
        let spare = budget - operators.len();
        if stands && spare >= 2 && !random.once_in(8) {
            operators.extend(filling(random, alphabet, spare - 1));
            operators.push(Operator::Product(hole));
        }
    }
    operators
}

/// One tree without holes as an expression, or the union of two: its symbols are in the same order.
fn filling(random: &mut Random, alphabet: &[u32], budget: usize) -> Vec<Operator> {
    let most = budget.min(random.between(1, 5));
    let is_one = most < 3 || random.once_in(3);
    let mut tree = |budget: usize| {
        let tree = generate::tree(random, alphabet, budget);
        tree.into_iter().map(Operator::Symbol)
    };
    if is_one {
        return tree(most).collect();
    }
    let trees = tree(most / 2).chain(tree((most - 1) / 2));
    trees.chain([Operator::Union]).collect()
}

/// Puts holes into a tree: one at the first place, at the last leaf or at any, or many; or the whole tree
/// gives way to one.
pub fn put(random: &mut Random, alphabet: &[u32], tree: &mut Tree) {
    let holes = words::holes(alphabet);
    let is_leaf = |node: &usize| words::arity(alphabet, tree[*node]) == Some(0);
    let leaves: Vec<usize> = (0..tree.len()).filter(is_leaf).collect();
    let any = random.pick(&leaves);
    match random.below(8) {
        0 => *tree = vec![random.pick(&holes)],
        1 => tree[0] = random.pick(&holes),
        2 => tree[*leaves.last().expect("a leaf")] = random.pick(&holes),
        3..=6 => tree[any] = random.pick(&holes),
        _ => {
            for leaf in leaves {
                if leaf == any || random.once_in(2) {
                    tree[leaf] = random.pick(&holes);
                }
            }
        }
    }
}
