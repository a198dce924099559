//! Trees in which holes stand (document 02, U8), over an alphabet with a symbol of each arity and one hole,
//! whose number is asked for; and the calls on them.

use crate::call::Call;
use crate::cases::heights::turning_over;
use crate::length_word::with_length_word;
use crate::limits::{ARITY_LIMIT, NODE_LIMIT};
use crate::words::{entry_word, node_word, node_words, Entry, TableWord};

pub struct Holed {
    pub alphabet: Vec<u32>,
    /// The symbol of each arity; that of arity 0 is no hole.
    pub symbols: [usize; ARITY_LIMIT + 1],
    pub hole: usize,
    pub table: Vec<u32>,
}

impl Holed {
    /// With a hole of this number, which is the last symbol where it is above 4.
    pub fn numbered(hole: usize) -> Holed {
        let mut alphabet: Vec<u32> = (0..=ARITY_LIMIT).map(entry_word).collect();
        alphabet.resize(alphabet.len().max(hole), entry_word(1));
        alphabet.insert(hole, Entry::Hole.word());
        let symbols = std::array::from_fn(|arity| arity + usize::from(arity >= hole));
        // Rules' tables have moves on holes too.
        let mut table = turning_over(&symbols);
        table.push(TableWord::Transition {
            symbol: hole,
            target: 1,
        });
        Holed {
            alphabet,
            symbols,
            hole,
            table: with_length_word(&table),
        }
    }

    /// A tree of this shape.
    pub fn tree(&self, shape: &[usize]) -> Vec<u32> {
        let symbols: Vec<usize> = shape.iter().map(|arity| self.symbols[*arity]).collect();
        node_words(&symbols)
    }

    /// A tree of this shape with holes at these places, which are leaves.
    pub fn with_holes(&self, shape: &[usize], holes: &[usize]) -> Vec<u32> {
        let mut tree = self.tree(shape);
        for place in holes {
            tree[*place] = node_word(self.hole);
        }
        tree
    }

    /// Run with a mark word for each element and some to spare.
    pub fn run(&self, tree: &[u32]) -> Call {
        let lent = vec![0x5a5a_5a5a; tree.len() + 2];
        Call::run(&self.alphabet, &self.table, tree, lent)
    }

    /// Exchange with room for the most elements, on marks that Run need not have written. Behind the used
    /// elements stand holes, at which it may not look.
    pub fn exchange(&self, tree: &[u32], node: usize, replacement: &[u32]) -> Call {
        let mut slice = tree.to_vec();
        slice.resize(NODE_LIMIT.max(tree.len()), node_word(self.hole));
        let sets = vec![0b101; slice.len()];
        Call::exchange(
            &self.alphabet,
            &self.table,
            slice,
            tree.len(),
            sets,
            node,
            replacement,
        )
    }
}
