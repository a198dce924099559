//! Exchange as it would be written for speed without a proof: the refusals of documents 01 and 02 in order, the last of them
//! where the replacement's nodes and the ancestors are worked out, by the textbook node step, and counted; then the splice. The
//! totals are moved by what is counted at the place, and no other marks are read. Nothing is kept between calls. The words of the
//! chapter are read once for their shape and once for their height, and where the alphabet has holes, once for these; of the
//! result no height is worked out, but at most the place's ancestors are counted.

mod moves;
mod renewal;
mod shape;

use moves::Moves;
use peer::call::{Answer, Call, Matcher, Operation};
use peer::limits::{HEIGHT_LIMIT, NODE_LIMIT};
use peer::model::Model;
use renewal::{Old, Renewal};
use shape::{Alphabet, Fault, Shape, Subtree};

/// Performs an Exchange on its own slices, and answers the new element count and the number worked out, or the number
/// of the refusal.
pub fn perform(call: &mut Call) -> Result<[u32; 2], u32> {
    let alphabet = Alphabet::check(&call.alphabet)?;
    let moves = Moves::check(&alphabet, &call.table).ok_or(8_u32)?;
    let place = check(&alphabet, &moves, call)?;
    let old = Old {
        alphabet: &alphabet,
        moves: &moves,
        tree: &call.tree,
        sets: &call.sets,
    };
    let renewal = Renewal::of(&old, &place.shape, &place.old, &call.replacement);
    call.totals = renewal.moved(call.totals).ok_or(27_u32)?;
    place.splice(&mut call.tree, 1);
    place.splice(&mut call.sets, moves.width);
    place.write(call, &renewal, moves.width);
    let recomputed = call.replacement.len() + renewal.ancestors.len();
    Ok([place.result as u32, recomputed as u32])
}

/// Where an exchange takes place: the old tree and its subtree that gives way, the place of the replacement's root, and
/// how many nodes there are before and after.
struct Place {
    shape: Shape,
    old: Subtree,
    root: usize,
    count: usize,
    result: usize,
}

/// The refusals behind 8.
fn check(alphabet: &Alphabet, moves: &Moves, call: &Call) -> Result<Place, u32> {
    let count = call.count;
    if is_outside(count) || count > call.tree.len() {
        return Err(9);
    }
    let shape = Shape::check(alphabet, &call.tree[..count]).map_err(|fault| match fault {
        Fault::Word => 10_u32,
        Fault::Shape => 11,
    })?;
    let height = shape.height();
    if height > HEIGHT_LIMIT {
        return Err(24);
    }
    if alphabet.is_holed(&call.tree[..count]) {
        return Err(26);
    }
    if call.sets.len() < count * moves.width {
        return Err(12);
    }
    if call.node >= count {
        return Err(14);
    }
    let nodes = call.replacement.len();
    if is_outside(nodes) {
        return Err(15);
    }
    let replacement = Shape::check(alphabet, &call.replacement).map_err(|_| 15_u32)?;
    if alphabet.is_holed(&call.replacement) {
        return Err(26);
    }
    let old = shape.subtree(call.node);
    let root = old.start + nodes - 1;
    let result = root + count - call.node;
    if result > NODE_LIMIT || result > call.tree.len() || result * moves.width > call.sets.len() {
        return Err(16);
    }
    if is_too_high(&shape, height, call.node, &replacement) {
        return Err(24);
    }
    Ok(Place {
        shape,
        old,
        root,
        count,
        result,
    })
}

fn is_outside(nodes: usize) -> bool {
    nodes == 0 || nodes > NODE_LIMIT
}

/// Whether a tree of this height, which is not too high, becomes so with the replacement in the place of the node. The
/// nodes that stay keep their depths, so the replacement alone decides. No node has as many ancestors as the tree is
/// high: they are counted only where one less than that would be too many.
fn is_too_high(shape: &Shape, height: usize, node: usize, replacement: &Shape) -> bool {
    let own = replacement.height();
    let is_too_deep = |ancestors: usize| ancestors + own > HEIGHT_LIMIT;
    is_too_deep(height - 1) && is_too_deep(shape.ancestors(node))
}

impl Place {
    /// Moves what stands from the old element on to where it stands from the replacement's root on, and clears what falls
    /// out of use.
    fn splice(&self, words: &mut [u32], width: usize) {
        if self.root == self.old.node {
            return;
        }
        words.copy_within(self.old.node * width..self.count * width, self.root * width);
        if self.result < self.count {
            words[self.result * width..self.count * width].fill(0);
        }
    }

    /// Writes what was worked out: all ancestors stand behind the old element.
    fn write(&self, call: &mut Call, renewal: &Renewal, width: usize) {
        let start = self.old.start;
        call.tree[start..=self.root].copy_from_slice(&call.replacement);
        call.sets[start * width..(self.root + 1) * width].copy_from_slice(&renewal.replacement);
        for (node, set) in renewal.ancestors.iter().zip(renewal.ancestor_sets(width)) {
            let moved = node - self.old.node + self.root;
            call.sets[moved * width..][..width].copy_from_slice(set);
        }
    }
}

/// Exchange alone; the other operations are the model's.
pub struct Incremental;

impl Matcher for Incremental {
    fn answer(&mut self, call: &Call) -> Answer {
        if call.operation != Operation::Exchange {
            return Model.answer(call);
        }
        let mut answer = Answer::unwritten(0, call);
        match perform(&mut answer.after) {
            Ok(values) => answer.values = values,
            Err(number) => answer.number = number,
        }
        answer
    }
}
