//! Document 000's algorithms, one node after the other: Move tries each transition of the node's symbol against the
//! children's sets, Skip-Epsilon follows epsilon transitions from what Move found. As in document 01, the states
//! passed on the way and the final state stay in the set. Sets are bit vectors, written where the marks belong.

use crate::automaton::{has, put, Automaton};
use peer::kinds;
use peer::words::count_ones;

/// Marks a tree that is known to be well-formed; answers the number of marked states.
pub fn run(alphabet: &[u32], table: &[u32], tree: &[u32], sets: &mut [u32]) -> u32 {
    let automaton = Automaton::arrange(alphabet, table);
    let width = automaton.width;
    let mut roots: Vec<usize> = Vec::new();
    let mut front: Vec<usize> = Vec::new();
    let mut cells = 0;
    for (node, word) in tree.iter().enumerate() {
        let symbol = kinds::symbol(*word);
        let first = roots.len() - automaton.arities[symbol];
        let (done, rest) = sets.split_at_mut(node * width);
        let set = &mut rest[..width];
        set.fill(0);
        step(&automaton, symbol, &roots[first..], done, set, &mut front);
        automaton.skip_epsilon(set, &mut front);
        cells += count_ones(set);
        roots.truncate(first);
        roots.push(node);
    }
    cells
}

/// Algorithm 2, Move: the targets whose child states are all in the children's sets.
fn step(
    automaton: &Automaton,
    symbol: usize,
    children: &[usize],
    done: &[u32],
    set: &mut [u32],
    front: &mut Vec<usize>,
) {
    for transition in &automaton.by_symbol[symbol] {
        let fits = |(state, child): (&usize, &usize)| has(&done[child * automaton.width..], *state);
        if transition.children.iter().zip(children).all(fits) && !has(set, transition.target) {
            put(set, transition.target);
            front.push(transition.target);
        }
    }
}
