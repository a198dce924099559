//! Document 01's Exchange on a tree whose stored state sets may be true or false: the subtree gives way to the
//! replacement, the replacement is worked out, and then ancestors from the nearest upwards until one is unchanged.

use crate::call::Call;
use crate::marks::{StateSet, Table};
use crate::postfix;
use crate::words;

/// A tree of symbols with the stored words of each node's state set.
#[derive(Clone)]
pub struct MarkedTree {
    pub symbols: Vec<usize>,
    pub rows: Vec<Vec<u32>>,
}

/// What an exchange leaves, and how many nodes were worked out.
pub struct Exchanged {
    pub tree: MarkedTree,
    pub recomputed: usize,
}

/// What stands before and behind the subtree of `node`, which has this size, stays in order around the replacement.
pub fn splice<T: Clone>(all: &[T], node: usize, size: usize, replacement: &[T]) -> Vec<T> {
    let end = node + 1;
    [&all[..end - size], replacement, &all[end..]].concat()
}

/// The exchange that a call with this table asks for; its used nodes and its replacement are trees, and there are stored
/// words of each used node.
pub fn exchange_of(call: &Call, table: &Table) -> Exchanged {
    let rows = call.sets.chunks(table.width()).take(call.count);
    let old = MarkedTree {
        symbols: words::symbols(&call.tree[..call.count]),
        rows: rows.map(<[u32]>::to_vec).collect(),
    };
    let replacement = words::symbols(&call.replacement);
    exchange(
        table,
        &words::arities(&call.alphabet),
        &old,
        call.node,
        &replacement,
    )
}

pub fn exchange(
    table: &Table,
    arities: &[usize],
    old: &MarkedTree,
    node: usize,
    replacement: &[usize],
) -> Exchanged {
    let size = postfix::sizes(&postfix::tree_children(&old.symbols, arities))[node];

    let symbols = splice(&old.symbols, node, size, replacement);
    let children = postfix::tree_children(&symbols, arities);
    let fresh: Vec<Vec<u32>> = table
        .reached_by_all(replacement, arities)
        .iter()
        .map(|set| table.set_words(set))
        .collect();
    let mut rows = splice(&old.rows, node, size, &fresh);

    let root = node + replacement.len() - size;
    let mut recomputed = replacement.len();
    let mut changed = rows[root] != old.rows[node];
    for above in postfix::ancestors(&children, root) {
        if !changed {
            break;
        }
        let below: Vec<StateSet> = children[above]
            .iter()
            .map(|child| table.stored_set(&rows[*child]))
            .collect();
        let row = table.set_words(&table.reached(symbols[above], &below.iter().collect::<Vec<_>>()));
        changed = row != rows[above];
        rows[above] = row;
        recomputed += 1;
    }
    Exchanged {
        tree: MarkedTree { symbols, rows },
        recomputed,
    }
}
