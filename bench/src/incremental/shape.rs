//! The alphabet and the trees over it, checked: one pass over a tree's words leaves one number a word, from which the
//! subtree, the parent, the children and the ancestors of a node and the tree's height are found.

use peer::kinds::{self, ENTRY, HOLE, NODE};
use peer::limits::{ARITY_LIMIT, CONSTANT_LIMIT, SYMBOL_LIMIT};

/// A checked alphabet: how many symbols it has, their arities, and a bit for each, which is set where it is a hole.
pub struct Alphabet {
    symbols: u32,
    arities: [u8; SYMBOL_LIMIT],
    holes: u64,
}

impl Alphabet {
    /// Refuses by 1 and 2.
    pub fn check(words: &[u32]) -> Result<Alphabet, u32> {
        if words.is_empty() || words.len() > SYMBOL_LIMIT {
            return Err(1);
        }
        let mut arities = [0; SYMBOL_LIMIT];
        let mut constants = 0;
        let mut holes = 0;
        for (symbol, (arity, word)) in arities.iter_mut().zip(words).enumerate() {
            let mut own = word ^ kinds::word(ENTRY);
            if own == HOLE {
                holes |= 1 << symbol;
                own = 0;
            }
            if own > ARITY_LIMIT as u32 {
                return Err(1);
            }
            constants += usize::from(own == 0);
            *arity = own as u8;
        }
        if constants == 0 || constants > CONSTANT_LIMIT {
            return Err(2);
        }
        Ok(Alphabet {
            symbols: words.len() as u32,
            arities,
            holes,
        })
    }

    /// The arity of a symbol that the alphabet has.
    pub fn arity(&self, symbol: u32) -> usize {
        usize::from(self.arities[symbol as usize % SYMBOL_LIMIT])
    }

    pub fn has(&self, symbol: u32) -> bool {
        symbol < self.symbols
    }

    /// Whether a tree over the alphabet holds a hole. Its words are looked at only where the alphabet has one.
    pub fn is_holed(&self, tree: &[u32]) -> bool {
        self.holes != 0 && tree.iter().any(|word| self.holes >> symbol(*word) & 1 == 1)
    }
}

/// The symbol of an element's word.
pub fn symbol(word: u32) -> u32 {
    word ^ kinds::word(NODE)
}

/// What is wrong with a tree's words: a word that is no element or has an unknown symbol, or else their shape.
pub enum Fault {
    Word,
    Shape,
}

/// After each word of a tree, the number of trees that no node has taken yet. A node's own tree is the last of them, so
/// its subtree reaches back as far as the numbers are not below its own, and the next node with no more takes it.
pub struct Shape {
    open: Vec<u16>,
}

/// A node, and the first word of its subtree.
pub struct Subtree {
    pub node: usize,
    pub start: usize,
}

impl Shape {
    /// Checks a tree of no more words than a tree may have.
    pub fn check(alphabet: &Alphabet, tree: &[u32]) -> Result<Shape, Fault> {
        let mut open = vec![0; tree.len()];
        let mut last = 0;
        for (place, (word, own)) in tree.iter().zip(&mut open).enumerate() {
            let symbol = symbol(*word);
            if !alphabet.has(symbol) {
                return Err(Fault::Word);
            }
            let arity = alphabet.arity(symbol);
            if arity > last {
                return Err(shape_or_word(alphabet, &tree[place..]));
            }
            last = last - arity + 1;
            *own = last as u16;
        }
        if last == 1 {
            Ok(Shape { open })
        } else {
            Err(Fault::Shape)
        }
    }

    /// How many nodes stand one above the other: the depth of the deepest node, where the root's is 1. Read from the root
    /// backwards, the number of open trees is the size of a stack, which holds the depths of all subtrees that are yet to
    /// be read. A node takes its own from the top and puts its children's there, always as many as a node can have at
    /// most: what is above the top is written again before it is read.
    pub fn height(&self) -> usize {
        let mut depths = vec![0_u16; self.open.len() + ARITY_LIMIT];
        let (mut own, mut depth, mut height) = (1, 1, 1);
        for before in self.open.iter().rev().skip(1) {
            let before = usize::from(*before);
            depths[own..][..ARITY_LIMIT].fill(depth + 1);
            depth = if before < own { depths[before] } else { depth + 1 };
            height = height.max(depth);
            own = before;
        }
        height.into()
    }

    /// How many ancestors a node has: the next node with no more open trees takes it, and so on.
    pub fn ancestors(&self, node: usize) -> usize {
        let mut own = self.open[node];
        let mut ancestors = 0;
        for open in &self.open[node + 1..] {
            if *open <= own {
                own = *open;
                ancestors += 1;
            }
        }
        ancestors
    }

    pub fn subtree(&self, node: usize) -> Subtree {
        let own = self.open[node];
        let before = self.open[..node].iter().rposition(|open| *open < own);
        Subtree {
            node,
            start: before.map_or(0, |last| last + 1),
        }
    }

    /// The subtree of the parent, whose children are left from left to right; None for the root. No word of the subtree
    /// below is looked at again.
    pub fn parent(&self, below: &Subtree, children: &mut Vec<usize>) -> Option<Subtree> {
        let own = self.open[below.node];
        let further = self.open[below.node + 1..].iter().position(|open| *open <= own)?;
        let node = below.node + 1 + further;
        children.clear();
        let mut child = node - 1;
        while child != below.node {
            children.push(child);
            child = self.subtree(child).start - 1;
        }
        children.push(child);
        let mut start = below.start;
        for _ in self.open[node]..own {
            children.push(start - 1);
            start = self.subtree(start - 1).start;
        }
        children.reverse();
        Some(Subtree { node, start })
    }
}

/// The fault of a tree that lacks children: a word further on that is none comes before it.
fn shape_or_word(alphabet: &Alphabet, rest: &[u32]) -> Fault {
    if rest.iter().all(|word| alphabet.has(symbol(*word))) {
        Fault::Shape
    } else {
        Fault::Word
    }
}
