//! Members of an expression's language from a seed, drawn as the substitution semantics says, and trees in which they
//! stand.

use crate::chance::Random;
use crate::generate::holes::without_marks;
use crate::generate::tree;
use crate::language::{Expression, Tree};
use crate::words::{self, Operator};

/// A tree in which members of the language stand at some leaves, or one that is a member as a whole, so that matches
/// are frequent. It has no hole, unless all constants are holes.
pub fn planted_tree(random: &mut Random, alphabet: &[u32], expression: &Expression, budget: usize) -> Tree {
    if random.once_in(3) {
        if let Some(member) = large_member(random, alphabet, expression, budget) {
            return member;
        }
    }
    let ground = random.between(1, budget);
    let mut planted = Tree::new();
    let mut spare = budget - ground;
    for symbol in tree(random, alphabet, ground) {
        let is_leaf = words::arity(alphabet, symbol) == Some(0);
        let member = if is_leaf && random.once_in(2) {
            large_member(random, alphabet, expression, spare + 1)
        } else {
            None
        };
        match member {
            Some(member) => {
                spare -= member.len() - 1;
                planted.extend(member);
            }
            None => planted.push(symbol),
        }
    }
    planted
}

/// The largest of a few drawn members without holes.
fn large_member(
    random: &mut Random,
    alphabet: &[u32],
    expression: &Expression,
    limit: usize,
) -> Option<Tree> {
    (0..4)
        .filter_map(|_| hole_free_member(random, alphabet, expression, limit))
        .max_by_key(Tree::len)
}

/// A drawn member in which no hole stands.
pub fn hole_free_member(
    random: &mut Random,
    alphabet: &[u32],
    expression: &Expression,
    limit: usize,
) -> Option<Tree> {
    member(random, alphabet, expression, limit).filter(|tree| !words::has_hole(alphabet, tree))
}

/// A member of the expression's language with at most `limit` nodes, where one is found: each operator is read as the
/// substitution semantics says, with a free choice at each place.
pub fn member(random: &mut Random, alphabet: &[u32], expression: &Expression, limit: usize) -> Option<Tree> {
    let mut drawing = Drawing {
        random,
        alphabet,
        expression,
        limit,
        effort: 200,
    };
    drawing.member_of(expression.whole())
}

/// How a member is drawn: from an expression over an alphabet, with at most `limit` nodes, in no more than `effort` steps.
struct Drawing<'a> {
    random: &'a mut Random,
    alphabet: &'a [u32],
    expression: &'a Expression,
    limit: usize,
    effort: usize,
}

impl Drawing<'_> {
    fn member_of(&mut self, place: usize) -> Option<Tree> {
        self.effort = self.effort.checked_sub(1)?;
        let expression = self.expression;
        let parts = &expression.children[place];
        let found = match expression.operators[place] {
            Operator::Empty => None,
            Operator::Symbol(symbol) => {
                let mut found = Tree::new();
                for part in parts {
                    found.extend(self.member_of(*part)?);
                }
                found.push(symbol);
                Some(found)
            }
            Operator::Union => {
                let first = self.random.below(2);
                self.member_of(parts[first])
                    .or_else(|| self.member_of(parts[1 - first]))
            }
            Operator::Product(constant) => {
                let first = self.member_of(parts[0])?;
                replace_each(&first, constant, || self.member_of(parts[1]))
            }
            Operator::Closure(constant) => {
                let steps = self.random.below(4);
                self.closure_member(parts[0], constant, steps)
            }
            Operator::Anything => Some(self.any_tree()),
        };
        found.filter(|tree| tree.len() <= self.limit)
    }

    /// A member of a closure's step with this number.
    fn closure_member(&mut self, inner: usize, constant: usize, step: usize) -> Option<Tree> {
        if step == 0 {
            return Some(vec![constant]);
        }
        if !self.random.once_in(4) {
            if let Some(outer) = self.member_of(inner) {
                let limit = self.limit;
                return replace_each(&outer, constant, || {
                    self.closure_member(inner, constant, step - 1)
                })
                .filter(|tree| tree.len() <= limit);
            }
        }
        self.closure_member(inner, constant, step - 1)
    }

    /// A tree over the alphabet, mostly a small one; holes are among its leaves half the time.
    fn any_tree(&mut self) -> Tree {
        let most = if self.random.once_in(3) { 12 } else { 4 };
        let budget = self.random.between(1, most.min(self.limit));
        if self.random.once_in(2) {
            return tree(self.random, self.alphabet, budget);
        }
        tree(self.random, &without_marks(self.alphabet), budget)
    }
}

/// A separately chosen tree at each place of the constant.
fn replace_each(tree: &Tree, constant: usize, mut choose: impl FnMut() -> Option<Tree>) -> Option<Tree> {
    let mut replaced = Tree::new();
    for symbol in tree {
        if *symbol == constant {
            replaced.extend(choose()?);
        } else {
            replaced.push(*symbol);
        }
    }
    Some(replaced)
}
