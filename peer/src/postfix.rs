//! Trees in postfix order: children first and from left to right. Expressions and chapters share it.

/// The children of every word of one tree whose words have these arities;
/// None where some word lacks children or not exactly one tree remains.
pub fn children(arities: &[usize]) -> Option<Vec<Vec<usize>>> {
    let mut roots: Vec<usize> = Vec::new();
    let mut all = Vec::with_capacity(arities.len());
    for (word, arity) in arities.iter().enumerate() {
        let first = roots.len().checked_sub(*arity)?;
        all.push(roots.split_off(first));
        roots.push(word);
    }
    (roots.len() == 1).then_some(all)
}

/// The children of every node of one tree of symbols that have these arities.
pub fn tree_children(tree: &[usize], arities: &[usize]) -> Vec<Vec<usize>> {
    let own: Vec<usize> = tree.iter().map(|symbol| arities[*symbol]).collect();
    children(&own).expect("one tree")
}

/// How many words the subtree of each word has.
pub fn sizes(children: &[Vec<usize>]) -> Vec<usize> {
    let mut sizes: Vec<usize> = Vec::with_capacity(children.len());
    for own in children {
        let size = 1 + own.iter().map(|child| sizes[*child]).sum::<usize>();
        sizes.push(size);
    }
    sizes
}

/// How many words stand one above the other in the subtree of each word: a lone word has height 1, any other is one higher
/// than its highest child.
pub fn heights(children: &[Vec<usize>]) -> Vec<usize> {
    let mut heights: Vec<usize> = Vec::with_capacity(children.len());
    for own in children {
        let below = own.iter().map(|child| heights[*child]).max();
        heights.push(1 + below.unwrap_or(0));
    }
    heights
}

/// The height of a whole tree of symbols that have these arities.
pub fn tree_height(tree: &[usize], arities: &[usize]) -> usize {
    *heights(&tree_children(tree, arities)).last().expect("a root")
}

/// The ancestors of a word, from the nearest upwards.
pub fn ancestors(children: &[Vec<usize>], word: usize) -> Vec<usize> {
    let sizes = sizes(children);
    (word + 1..children.len())
        .filter(|above| above + 1 - sizes[*above] <= word)
        .collect()
}

/// One word above the other, each with one child, over a leaf.
pub fn chain<T: Clone>(leaf: T, above: T, length: usize) -> Vec<T> {
    let mut words = vec![above; length];
    if let Some(first) = words.first_mut() {
        *first = leaf;
    }
    words
}
