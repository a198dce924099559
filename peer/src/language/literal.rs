//! The literal reading of a language: the set of all members up to a size, each operator by document 01's own sentence.
//! Substitution never makes a tree smaller, so members of that size come from members of that size alone, and the sets
//! are exact.

use crate::language::{Expression, Tree};
use crate::words::Operator;
use std::collections::BTreeSet;

/// All members with at most `limit` nodes.
pub fn members(expression: &Expression, arities: &[usize], limit: usize) -> BTreeSet<Tree> {
    members_of(expression, expression.whole(), arities, limit)
}

fn members_of(expression: &Expression, place: usize, arities: &[usize], limit: usize) -> BTreeSet<Tree> {
    let parts: Vec<BTreeSet<Tree>> = expression.children[place]
        .iter()
        .map(|child| members_of(expression, *child, arities, limit))
        .collect();
    match expression.operators[place] {
        Operator::Empty => BTreeSet::new(),
        Operator::Symbol(symbol) => over(symbol, &parts, limit),
        Operator::Union => parts[0].union(&parts[1]).cloned().collect(),
        Operator::Product(constant) => product(&parts[0], constant, &parts[1], arities, limit),
        Operator::Closure(constant) => closure(&parts[0], constant, arities, limit),
        Operator::Anything => trees(arities, limit),
    }
}

/// The symbol over one member of each language.
fn over(symbol: usize, parts: &[BTreeSet<Tree>], limit: usize) -> BTreeSet<Tree> {
    let mut rows: BTreeSet<Tree> = BTreeSet::from([Tree::new()]);
    for part in parts {
        rows = rows
            .iter()
            .flat_map(|row| {
                let fits = |member: &&Tree| row.len() + member.len() < limit;
                part.iter()
                    .filter(fits)
                    .map(move |member| [&row[..], member].concat())
            })
            .collect();
    }
    rows.into_iter()
        .map(|row| [&row[..], &[symbol]].concat())
        .filter(|tree| tree.len() <= limit)
        .collect()
}

/// Puts a member of the language, chosen separately, at each place of the constant in the tree.
fn substitute(
    tree: &Tree,
    constant: usize,
    language: &BTreeSet<Tree>,
    arities: &[usize],
    limit: usize,
) -> BTreeSet<Tree> {
    let mut done: Vec<BTreeSet<Tree>> = Vec::new();
    for symbol in tree {
        let parts = done.split_off(done.len() - arities[*symbol]);
        done.push(if *symbol == constant {
            language.clone()
        } else {
            over(*symbol, &parts, limit)
        });
    }
    done.pop().unwrap_or_default()
}

fn product(
    first: &BTreeSet<Tree>,
    constant: usize,
    second: &BTreeSet<Tree>,
    arities: &[usize],
    limit: usize,
) -> BTreeSet<Tree> {
    first
        .iter()
        .flat_map(|tree| substitute(tree, constant, second, arities, limit))
        .collect()
}

/// Step 0 is the constant alone, step n+1 is step n joined with the product by step n, until nothing new appears.
fn closure(language: &BTreeSet<Tree>, constant: usize, arities: &[usize], limit: usize) -> BTreeSet<Tree> {
    let mut step: BTreeSet<Tree> = BTreeSet::from([vec![constant]]);
    loop {
        let mut next = step.clone();
        next.extend(product(language, constant, &step, arities, limit));
        if next == step {
            return step;
        }
        step = next;
    }
}

/// All trees over an alphabet with at most `limit` nodes.
pub fn trees(arities: &[usize], limit: usize) -> BTreeSet<Tree> {
    let mut all: BTreeSet<Tree> = BTreeSet::new();
    loop {
        let next: BTreeSet<Tree> = arities
            .iter()
            .enumerate()
            .flat_map(|(symbol, arity)| over(symbol, &vec![all.clone(); *arity], limit))
            .collect();
        if next == all {
            return all;
        }
        all = next;
    }
}

/// The largest size, at most 9, such that no more than `most` trees have that size or less.
pub fn size_with_at_most(arities: &[usize], most: usize) -> usize {
    let mut of_size = vec![0];
    let mut total = 0;
    for size in 1..=9 {
        let fresh: usize = arities.iter().map(|arity| rows(&of_size, *arity, size - 1)).sum();
        total += fresh;
        if total > most {
            return size - 1;
        }
        of_size.push(fresh);
    }
    9
}

/// How many rows of so many trees have so many nodes together.
fn rows(of_size: &[usize], trees: usize, nodes: usize) -> usize {
    if trees == 0 {
        return usize::from(nodes == 0);
    }
    (1..=nodes)
        .map(|first| of_size[first] * rows(of_size, trees - 1, nodes - first))
        .sum()
}
