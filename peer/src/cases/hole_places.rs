//! Document 02's U8: a chapter is refused by 26 wherever a hole stands in it. A hole at every leaf of trees
//! of many sizes, low and high, and of many numbers; for Run, for the used tree of an Exchange and for its
//! replacement.

use crate::call::Call;
use crate::cases::heights::{expect_faults, RESULT_TOO_HIGH, TOO_HIGH};
use crate::cases::holed::Holed;
use crate::cases::holes::{HOLE_IN_CHAPTER, HOLE_IN_REPLACEMENT};
use crate::cases::limits::expect;
use crate::cases::shapes::{comb, combs, deepest, high, low, shape_children, with_leaf};
use crate::compare::Comparison;
use crate::language::Tree;
use crate::limits::{HEIGHT_LIMIT, NODE_LIMIT};
use crate::refusals::Condition;
use crate::words::node_word;
use std::collections::BTreeSet;

pub fn compare(comparison: &mut Comparison) {
    every_place(
        comparison,
        &[1, 2, 7, 511, 512, 513, 514, 575, 576, 577, 640, 1000],
        1,
    );
    every_place(comparison, &[NODE_LIMIT - 1, NODE_LIMIT], 5);
    every_symbol(comparison);
    many_holes(comparison);
    high_trees(comparison);
    other_faults(comparison);
}

const WRONG: &str = "a hole at some place of a chapter is taken otherwise";

/// The hole's numbers: the first and the last that there are, and others. Their count is odd, so that each
/// number comes to each place of runs of 2, 4, 8 words and so on.
pub const NUMBERS: [usize; 5] = [0, 1, 63, 5, 32];

/// Trees of these sizes, with a hole at one place at a time: in Run at each place where a leaf can be, in
/// Exchange at the last of these and, from the first on, at each so many further on.
pub fn every_place(comparison: &mut Comparison, sizes: &[usize], step: usize) {
    let alphabets = NUMBERS.map(Holed::numbered);
    for nodes in sizes {
        // The root of more than one node is no leaf.
        let last = nodes.saturating_sub(2);
        for place in 0..=last {
            let own = &alphabets[place / step % NUMBERS.len()];
            let shapes = [low, high].map(|part| with_leaf(*nodes, place, part));
            for shape in &shapes {
                let call = own.run(&own.with_holes(shape, &[place]));
                expect(comparison, WRONG, &call, 26);
            }
            if place % step == 0 || place == last {
                expect_exchanges(comparison, own, &shapes[(nodes + place) % 2], place);
            }
        }
        for shape in [low(*nodes), high(*nodes)] {
            without_hole(comparison, &alphabets[nodes % NUMBERS.len()], &shape);
        }
    }
}

/// The hole in the used tree and in the replacement of an Exchange. In the used tree, what gives way may be
/// the hole itself, the whole tree or something else: the hole is found in all of them.
fn expect_exchanges(comparison: &mut Comparison, own: &Holed, shape: &[usize], place: usize) {
    let tree = own.with_holes(shape, &[place]);
    let leaf = own.tree(&[0]);
    let nodes = shape.len();
    let node = [place, nodes - 1, 0, nodes / 2][place % 4];
    expect(comparison, WRONG, &own.exchange(&tree, node, &leaf), 26);
    expect(comparison, WRONG, &own.exchange(&leaf, 0, &tree), 26);
}

/// The same tree without a hole is taken, though one is in the alphabet and behind the used elements.
fn without_hole(comparison: &mut Comparison, own: &Holed, shape: &[usize]) {
    let wrong = "a chapter without a hole is refused for one";
    let tree = own.tree(shape);
    let leaf = own.tree(&[0]);
    for call in [
        own.run(&tree),
        own.exchange(&tree, shape.len() / 2, &leaf),
        own.exchange(&leaf, 0, &tree),
    ] {
        expect(comparison, wrong, &call, 0);
    }
}

/// Every symbol number as a small and a large tree's first leaf: the hole alone is answered by 26, a number
/// that the alphabet does not have by 10.
fn every_symbol(comparison: &mut Comparison) {
    let wrong = "some symbol number in a chapter is taken otherwise";
    for hole in NUMBERS {
        let own = Holed::numbered(hole);
        for symbol in 0..256 {
            let is_leaf = symbol == own.symbols[0];
            let (in_tree, in_replacement) = match symbol {
                _ if symbol == hole => (26, 26),
                _ if symbol >= own.alphabet.len() => (10, 15),
                _ if is_leaf => (0, 0),
                _ => (11, 15),
            };
            for nodes in [3, 514] {
                let mut tree = own.tree(&low(nodes));
                tree[0] = node_word(symbol);
                expect(comparison, wrong, &own.run(&tree), in_tree);
                let leaf = own.tree(&[0]);
                expect(comparison, wrong, &own.exchange(&tree, 1, &leaf), in_tree);
                expect(comparison, wrong, &own.exchange(&leaf, 0, &tree), in_replacement);
            }
        }
    }
}

/// Holes at all leaves, at every second one, and at the first and the last.
fn many_holes(comparison: &mut Comparison) {
    let own = Holed::numbered(5);
    for nodes in [2, 7, 100, 512, 513, 577, 1000, NODE_LIMIT] {
        for shape in [low(nodes), high(nodes)] {
            let leaves: Vec<usize> = (0..nodes).filter(|node| shape[*node] == 0).collect();
            let ends = [leaves[0], leaves[leaves.len() - 1]];
            let every_second: Vec<usize> = leaves.iter().copied().step_by(2).collect();
            for holes in [&leaves[..], &every_second, &ends, &ends[1..]] {
                let tree = own.with_holes(&shape, holes);
                expect(comparison, WRONG, &own.run(&tree), 26);
                let leaf = own.tree(&[0]);
                expect(comparison, WRONG, &own.exchange(&tree, nodes - 1, &leaf), 26);
                expect(comparison, WRONG, &own.exchange(&leaf, 0, &tree), 26);
                let both = own.exchange(&tree, nodes - 1, &tree);
                let faults = [HOLE_IN_CHAPTER, HOLE_IN_REPLACEMENT];
                expect_faults(comparison, WRONG, &both, &faults);
            }
        }
    }
}

/// Combs of the greatest height and of one more, with a hole at the bottom or beside the top: 24 is judged
/// before the chapter's 26, and after the replacement's.
fn high_trees(comparison: &mut Comparison) {
    let own = Holed::numbered(1);
    for (arity, place) in combs() {
        for height in [HEIGHT_LIMIT, HEIGHT_LIMIT + 1] {
            let shape = comb(arity, place, height);
            let lowest = deepest(&shape_children(&shape));
            let top = shape.iter().rposition(|arity| *arity == 0).expect("a leaf");
            let is_too_high = height > HEIGHT_LIMIT;
            for hole in [lowest, top] {
                let tree = own.with_holes(&shape, &[hole]);
                let leaf = own.tree(&[0]);
                let mut faults = vec![HOLE_IN_CHAPTER];
                let mut of_result = vec![HOLE_IN_REPLACEMENT];
                if is_too_high {
                    faults.insert(0, TOO_HIGH);
                    of_result.push(RESULT_TOO_HIGH);
                }
                expect_faults(comparison, WRONG, &own.run(&tree), &faults);
                let whole = own.exchange(&tree, shape.len() - 1, &leaf);
                expect_faults(comparison, WRONG, &whole, &faults);
                expect_faults(comparison, WRONG, &own.exchange(&leaf, 0, &tree), &of_result);
            }
        }
    }
}

/// A hole at one place of a tree and another fault at another place, before the hole and behind it, near and
/// far: 10 and 11 come first wherever they are, 12 comes behind.
fn other_faults(comparison: &mut Comparison) {
    let wrong = "a hole and another fault of a chapter are judged in another order";
    let own = Holed::numbered(63);
    let [ten, eleven, twelve, fifteen] = [10, 11, 12, 15].map(Condition::first);
    for nodes in [7, 130, 514, 640, 1000] {
        let shape: Tree = with_leaf(nodes, nodes - 2, low);
        let leaves: Vec<usize> = (0..nodes).filter(|node| shape[*node] == 0).collect();
        for hole in some_of(&leaves) {
            let tree = own.with_holes(&shape, &[hole]);
            for mut short in [own.run(&tree), used(&own, &tree)] {
                short.sets.truncate(nodes - 1);
                expect_faults(comparison, wrong, &short, &[HOLE_IN_CHAPTER, twelve]);
            }
            for other in some_of(&leaves).into_iter().filter(|other| *other != hole) {
                let unknown = changed(&tree, other, node_word(64));
                let none = changed(&tree, other, 0);
                let lacking = changed(&tree, other, node_word(own.symbols[1]));
                let second = [&tree[..other], &own.tree(&[0]), &tree[other..]].concat();
                for (words, fault) in [(unknown, ten), (none, ten), (lacking, eleven), (second, eleven)] {
                    let faults = [fault, HOLE_IN_CHAPTER];
                    expect_faults(comparison, wrong, &own.run(&words), &faults);
                    expect_faults(comparison, wrong, &used(&own, &words), &faults);
                    let faults = [fifteen, HOLE_IN_REPLACEMENT];
                    expect_faults(
                        comparison,
                        wrong,
                        &own.exchange(&own.tree(&[0]), 0, &words),
                        &faults,
                    );
                }
            }
        }
    }
}

/// Exchange with these used words, whose last gives way to a leaf.
fn used(own: &Holed, words: &[u32]) -> Call {
    own.exchange(words, words.len() - 1, &own.tree(&[0]))
}

fn changed(tree: &[u32], place: usize, word: u32) -> Vec<u32> {
    let mut changed = tree.to_vec();
    changed[place] = word;
    changed
}

/// The first and the last leaf, and some between them, of which some stand beside each other.
fn some_of(leaves: &[usize]) -> BTreeSet<usize> {
    let last = leaves.len() - 1;
    [0, 1, last / 3, last / 2, last / 2 + 1, last]
        .map(|place| leaves[place])
        .into()
}
