//! The state sets that an exchange changes, worked out by the textbook node step and held apart from the lent words, and by how
//! much they move the totals: so a call can be refused by 27 before any lent word is written.

use super::moves::{has, Moves};
use super::shape::{symbol, Alphabet, Shape, Subtree};
use peer::limits::{ARITY_LIMIT, TOTAL_LIMIT};
use peer::totals::Totals;
use peer::words::count_ones;

/// What is read: the alphabet, the moves, and the old tree with its stored sets.
pub struct Old<'a> {
    pub alphabet: &'a Alphabet,
    pub moves: &'a Moves,
    pub tree: &'a [u32],
    pub sets: &'a [u32],
}

/// The sets of the replacement's nodes; the ancestors that were worked out, by their old numbers; and their sets behind that of
/// the replacement's root.
pub struct Renewal {
    pub replacement: Vec<u32>,
    pub ancestors: Vec<usize>,
    path: Vec<u32>,
    differences: [i64; 3],
}

impl Renewal {
    /// Works out the replacement in the place of the subtree, and then ancestors up to the first that is unchanged.
    pub fn of(old: &Old, shape: &Shape, place: &Subtree, replacement: &[u32]) -> Renewal {
        let width = old.moves.width;
        let mut front = Vec::new();
        let sets = old.sets_of(replacement, &mut front);
        let mut renewal = Renewal {
            path: sets[sets.len() - width..].to_vec(),
            ancestors: Vec::new(),
            differences: [0; 3],
            replacement: sets,
        };
        let fallen = &old.sets[place.start * width..(place.node + 1) * width];
        renewal.differences[0] = replacement.len() as i64 - (place.node + 1 - place.start) as i64;
        renewal.differences[1] = old.moves.matches(&renewal.replacement) - old.moves.matches(fallen);
        renewal.differences[2] = ones(&renewal.replacement) - ones(fallen);
        if *old.set(place.node) != renewal.path[..] {
            renewal.climb(old, shape, place, &mut front);
        }
        renewal
    }

    fn climb(&mut self, old: &Old, shape: &Shape, place: &Subtree, front: &mut Vec<u16>) {
        let mut children = Vec::with_capacity(ARITY_LIMIT);
        let mut next = shape.parent(place, &mut children);
        let mut below = place.node;
        while let Some(parent) = next {
            let end = self.path.len();
            self.path.resize(end + old.moves.width, 0);
            let (done, own) = self.path.split_at_mut(end);
            let carried = &done[end - old.moves.width..];
            let mut sets: [&[u32]; ARITY_LIMIT] = [&[]; ARITY_LIMIT];
            for (set, child) in sets.iter_mut().zip(&children) {
                *set = if *child == below { carried } else { old.set(*child) };
            }
            let symbol = symbol(old.tree[parent.node]);
            old.moves.step(symbol, &sets[..children.len()], own, front);
            self.ancestors.push(parent.node);
            let stored = old.set(parent.node);
            if *own == *stored {
                break;
            }
            self.differences[1] += old.moves.matches(own) - old.moves.matches(stored);
            self.differences[2] += ones(own) - ones(stored);
            below = parent.node;
            next = shape.parent(&parent, &mut children);
        }
    }

    /// The record as the exchange leaves it; None where it is refused by 27.
    pub fn moved(&self, record: Totals) -> Option<Totals> {
        let mut moved = record;
        for (total, difference) in moved.iter_mut().zip(self.differences) {
            let new = i64::from(*total) + difference;
            *total = u32::try_from(new).ok().filter(|new| *new <= TOTAL_LIMIT)?;
        }
        Some(moved)
    }

    /// The sets of the ancestors.
    pub fn ancestor_sets(&self, width: usize) -> impl Iterator<Item = &[u32]> {
        self.path.chunks_exact(width).skip(1)
    }
}

impl Old<'_> {
    fn set(&self, node: usize) -> &[u32] {
        &self.sets[node * self.moves.width..][..self.moves.width]
    }

    /// The sets of a tree's nodes. `front` is empty before and after.
    fn sets_of(&self, tree: &[u32], front: &mut Vec<u16>) -> Vec<u32> {
        let width = self.moves.width;
        let mut sets = vec![0; tree.len() * width];
        let mut roots: Vec<usize> = Vec::new();
        for (node, word) in tree.iter().enumerate() {
            let symbol = symbol(*word);
            let first = roots.len() - self.alphabet.arity(symbol);
            let (done, rest) = sets.split_at_mut(node * width);
            let mut below: [&[u32]; ARITY_LIMIT] = [&[]; ARITY_LIMIT];
            for (set, child) in below.iter_mut().zip(&roots[first..]) {
                *set = &done[child * width..][..width];
            }
            self.moves
                .step(symbol, &below[..roots.len() - first], &mut rest[..width], front);
            roots.truncate(first);
            roots.push(node);
        }
        sets
    }
}

impl Moves {
    /// How many of these sets have the final state.
    fn matches(&self, sets: &[u32]) -> i64 {
        let matches = sets.chunks_exact(self.width).filter(|set| has(set, self.last));
        matches.count() as i64
    }
}

fn ones(words: &[u32]) -> i64 {
    count_ones(words).into()
}
