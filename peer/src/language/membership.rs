//! Membership of any tree, decided from the substitution semantics by a least fixed point for each node.
//!
//! What a constant stands for at a place of an expression: itself, or the language of another place.
//! In the product of F by G over c, c stands in F for the language of G; in a closure over c, c stands inside for the
//! closure itself. The place alone decides this, so the languages of the places are the least ones with
//! t in place E exactly if
//!   E a constant: t is in what the constant stands for here;
//!   E a symbol over parts: t has that symbol and each child is in the part;
//!   E a union: t is in either; E a product: t is in F; E a closure: t is in what c stands for outside, or in F;
//!   E anything (document 02, U7): t is in what some constant stands for here, or t has children and each is in E.

use crate::language::Expression;
use crate::postfix;
use crate::words::Operator;

/// An expression over symbols with these arities, with what each constant stands for at each place: itself (None) or
/// another place's language.
pub struct Membership<'a> {
    expression: &'a Expression,
    arities: &'a [usize],
    scopes: Vec<Vec<Option<usize>>>,
}

impl<'a> Membership<'a> {
    pub fn new(expression: &'a Expression, arities: &'a [usize]) -> Membership<'a> {
        let mut scopes = vec![vec![None; arities.len()]; expression.operators.len()];
        for place in (0..expression.operators.len()).rev() {
            let outer = scopes[place].clone();
            let parts = &expression.children[place];
            for part in parts {
                scopes[*part] = outer.clone();
            }
            match expression.operators[place] {
                Operator::Product(constant) => scopes[parts[0]][constant] = Some(parts[1]),
                Operator::Closure(constant) => scopes[parts[0]][constant] = Some(place),
                _ => {}
            }
        }
        Membership {
            expression,
            arities,
            scopes,
        }
    }

    /// For every node of a tree, whether the subtree there is a member of the whole expression's language.
    pub fn subtrees(&self, tree: &[usize]) -> Vec<bool> {
        let mut holds: Vec<Vec<bool>> = Vec::with_capacity(tree.len());
        for (symbol, children) in tree.iter().zip(postfix::tree_children(tree, self.arities)) {
            let row = self.least(*symbol, &children, &holds);
            holds.push(row);
        }
        holds.iter().map(|row| row[self.expression.whole()]).collect()
    }

    /// The places whose languages hold one node's subtree: adds places until nothing new is found.
    fn least(&self, symbol: usize, children: &[usize], holds: &[Vec<bool>]) -> Vec<bool> {
        let mut row = vec![false; self.expression.operators.len()];
        loop {
            let mut grown = false;
            for place in 0..row.len() {
                if !row[place] && self.is_member(place, symbol, children, holds, &row) {
                    row[place] = true;
                    grown = true;
                }
            }
            if !grown {
                return row;
            }
        }
    }

    fn is_member(
        &self,
        place: usize,
        symbol: usize,
        children: &[usize],
        holds: &[Vec<bool>],
        row: &[bool],
    ) -> bool {
        let parts = &self.expression.children[place];
        let stands_for = |constant: usize| match self.scopes[place][constant] {
            None => symbol == constant,
            Some(other) => row[other],
        };
        match self.expression.operators[place] {
            Operator::Empty => false,
            Operator::Symbol(own) if parts.is_empty() => stands_for(own),
            Operator::Symbol(own) => {
                own == symbol
                    && parts
                        .iter()
                        .zip(children)
                        .all(|(part, child)| holds[*child][*part])
            }
            Operator::Union => row[parts[0]] || row[parts[1]],
            Operator::Product(_) => row[parts[0]],
            Operator::Closure(constant) => stands_for(constant) || row[parts[0]],
            Operator::Anything => {
                let mut constants = (0..self.arities.len()).filter(|symbol| self.arities[*symbol] == 0);
                let is_over_members = || children.iter().all(|child| holds[*child][place]);
                constants.any(stands_for) || (!children.is_empty() && is_over_members())
            }
        }
    }
}
