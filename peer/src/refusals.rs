//! Document 01's "Refused calls", with document 02's U1, U6, U7, U8 and U10. Every condition is judged by itself, so
//! that a call has a list of faults in the documents' order; the first of them is its refusal, and a call
//! without a fault is accepted. A condition that rests on something missing (the table of a rule that is
//! none, say) is judged by what holds of every such thing: a table has two words, a state set has a word, a
//! result has the replacement's nodes. What is no tree has no height, so it is not too high. A hole is looked
//! for in any words; those that are no nodes with a known symbol are none. An exchange that cannot be worked out
//! moves no total by more than the totals of any chapter.

use crate::automaton;
use crate::call::{Call, Operation};
use crate::exchange::{exchange_of, splice};
use crate::length_word::LEAST_WORDS;
use crate::limits::{
    CONSTANT_LIMIT, EXPRESSION_LIMIT, HEIGHT_LIMIT, NODE_LIMIT, STATE_LIMIT, SYMBOL_LIMIT, TABLE_LIMIT,
    TOTAL_LIMIT,
};
use crate::marks::Table;
use crate::postfix;
use crate::totals;
use crate::words::{self, Entry, Operator};
use std::fmt;

/// A condition by which an operation refuses: its number, and whether that stands in the operation's order
/// for the second time. Exchange's first 24 and 26 are asked of the used chapter, the second 24 of the
/// result, the second 26 of the replacement.
#[derive(Clone, Copy, Debug, PartialEq, Eq, PartialOrd, Ord)]
pub struct Condition {
    pub number: u32,
    pub is_second: bool,
}

impl Condition {
    pub const fn first(number: u32) -> Condition {
        let is_second = false;
        Condition { number, is_second }
    }

    pub const fn second(number: u32) -> Condition {
        let is_second = true;
        Condition { number, is_second }
    }
}

impl fmt::Display for Condition {
    fn fmt(&self, f: &mut fmt::Formatter<'_>) -> fmt::Result {
        let which = if self.is_second { "second " } else { "" };
        write!(f, "{which}{}", self.number)
    }
}

/// The conditions that the call meets, in the documents' order for its operation.
pub fn faults(call: &Call) -> Vec<Condition> {
    in_order(call)
        .into_iter()
        .filter(|(_, fault)| *fault)
        .map(|(condition, _)| condition)
        .collect()
}

/// The condition that refuses the call.
pub fn refusal(call: &Call) -> Option<Condition> {
    faults(call).first().copied()
}

/// The conditions of an operation in the order in which they are judged, whatever is given to it.
pub fn conditions(operation: Operation) -> Vec<Condition> {
    in_order(&Call::empty(operation, &[]))
        .into_iter()
        .map(|(condition, _)| condition)
        .collect()
}

fn in_order(call: &Call) -> Vec<(Condition, bool)> {
    let judged = judged(call);
    let condition = |place: usize| {
        let number = judged[place].0;
        let is_second = judged[..place].iter().any(|(before, _)| *before == number);
        Condition { number, is_second }
    };
    let faults = judged.iter().map(|(_, fault)| *fault);
    (0..judged.len()).map(condition).zip(faults).collect()
}

/// Numbers in order, each with whether its condition holds.
type Judged = Vec<(u32, bool)>;

fn judged(call: &Call) -> Judged {
    match call.operation {
        Operation::Compile => [alphabet(call), expression(call), compiled(call)].concat(),
        Operation::Run => marked(call, &[table, count, tree, sets]),
        Operation::List => marked(call, &[table, count, sets, list]),
        Operation::Exchange => marked(call, &[table, count, tree, sets, change]),
    }
}

/// What Run, List and Exchange are given: a table, and so many nodes with their state sets. Run and Exchange are given the
/// nodes too, which are the first of the lent ones.
struct Marked<'a> {
    call: &'a Call,
    table: Option<Table>,
    count: usize,
    tree: &'a [u32],
}

/// The alphabet's numbers, and then those of each part.
fn marked(call: &Call, parts: &[fn(&Marked) -> Judged]) -> Judged {
    let count = match call.operation {
        Operation::Run => call.tree.len(),
        _ => call.count,
    };
    let own = Marked {
        call,
        table: Table::read(&call.alphabet, &call.table),
        count,
        tree: &call.tree[..count.min(call.tree.len())],
    };
    let further = parts.iter().flat_map(|part| part(&own));
    alphabet(call).into_iter().chain(further).collect()
}

fn alphabet(call: &Call) -> Judged {
    let alphabet = &call.alphabet;
    let has_no_entry = alphabet.iter().any(|word| Entry::read(*word).is_none());
    let constants = words::constants(alphabet).len();
    vec![
        (1, is_outside(alphabet.len(), SYMBOL_LIMIT) || has_no_entry),
        (2, is_outside(constants, CONSTANT_LIMIT)),
    ]
}

fn expression(call: &Call) -> Judged {
    let Call {
        alphabet, expression, ..
    } = call;
    let operands = leaf_unless_known(expression.iter().map(|word| words::operands(alphabet, *word)));
    let named = words::named(alphabet);
    vec![
        (3, is_outside(expression.len(), EXPRESSION_LIMIT)),
        (
            4,
            expression
                .iter()
                .any(|word| is_no_operator(alphabet, &named, *word)),
        ),
        (5, postfix::children(&operands).is_none()),
        (6, automaton::states(alphabet, expression) > STATE_LIMIT),
    ]
}

fn compiled(call: &Call) -> Judged {
    let table = automaton::table(&call.alphabet, &call.expression);
    let words = table.map_or(LEAST_WORDS, |table| table.len());
    vec![(25, words > TABLE_LIMIT), (7, words > call.table.len())]
}

fn table(own: &Marked) -> Judged {
    vec![(8, own.table.is_none())]
}

fn count(own: &Marked) -> Judged {
    let is_over_slice = own.call.operation == Operation::Exchange && own.count > own.call.tree.len();
    vec![(9, is_outside(own.count, NODE_LIMIT) || is_over_slice)]
}

fn tree(own: &Marked) -> Judged {
    let alphabet = &own.call.alphabet;
    let children = postfix::children(&node_arities(alphabet, own.tree));
    vec![
        (10, has_no_node(alphabet, own.tree)),
        (11, children.is_none()),
        (24, is_too_high(children)),
        (26, has_hole(alphabet, own.tree)),
    ]
}

fn sets(own: &Marked) -> Judged {
    vec![(12, own.set_words(own.count) > own.call.sets.len())]
}

fn list(own: &Marked) -> Judged {
    vec![(13, own.count > own.call.list.len())]
}

fn change(own: &Marked) -> Judged {
    let Call {
        alphabet,
        node,
        replacement,
        ..
    } = own.call;
    let arities = node_arities(alphabet, replacement);
    let is_no_replacement = is_outside(replacement.len(), NODE_LIMIT)
        || has_no_node(alphabet, replacement)
        || postfix::children(&arities).is_none();
    let result = result(&node_arities(alphabet, own.tree), *node, &arities);
    let nodes = result.len();
    let is_over_slice = nodes > own.call.tree.len() || own.set_words(nodes) > own.call.sets.len();
    vec![
        (14, *node >= own.count),
        (15, is_no_replacement),
        (26, has_hole(alphabet, replacement)),
        (16, nodes > NODE_LIMIT || is_over_slice),
        (24, is_too_high(postfix::children(&result))),
        (27, own.totals_come_out_outside(nodes, !is_no_replacement)),
    ]
}

impl Marked<'_> {
    /// The state set words of so many nodes.
    fn set_words(&self, nodes: usize) -> usize {
        nodes.saturating_mul(self.table.as_ref().map_or(1, Table::width))
    }

    /// Whether a total comes out of an exchange with so many nodes below zero or above the figure. Where there is no exchange,
    /// a total does that is so far above the figure that none brings it back.
    fn totals_come_out_outside(&self, nodes: usize, is_replacement: bool) -> bool {
        let (call, record) = (self.call, self.call.totals);
        let used_sets = self.set_words(call.count);
        if let (Some(table), Some(sets)) = (&self.table, call.sets.get(..used_sets)) {
            let before = totals::counted(table, sets);
            // Most records come out within the bounds whatever the exchange makes of the marks: it is not worked out then.
            let most = totals::most(nodes, table);
            let ends = [[0; 3], most].map(|after| totals::moved(record, before, after));
            if !ends.into_iter().any(totals::is_outside) {
                return false;
            }
            if is_replacement && self.has_node() {
                let after = totals::counted(table, &exchange_of(call, table).tree.rows.concat());
                return totals::is_outside(totals::moved(record, before, after));
            }
        }
        let most = [NODE_LIMIT as u32, NODE_LIMIT as u32, TOTAL_LIMIT];
        let least = totals::moved(record, most, [0; 3]);
        totals::is_outside(least.map(|total| total.max(0)))
    }

    /// Whether the used words are a tree over an alphabet, and the node is one of it.
    fn has_node(&self) -> bool {
        let Call { alphabet, node, .. } = self.call;
        *node < self.tree.len()
            && self.count == self.tree.len()
            && alphabet.iter().all(|word| Entry::read(*word).is_some())
            && !has_no_node(alphabet, self.tree)
            && postfix::children(&node_arities(alphabet, self.tree)).is_some()
    }
}

fn is_outside(length: usize, limit: usize) -> bool {
    length == 0 || length > limit
}

fn is_no_operator(alphabet: &[u32], named: &[usize], word: u32) -> bool {
    match Operator::read(word) {
        None => true,
        Some(Operator::Symbol(symbol)) => words::arity(alphabet, symbol).is_none(),
        Some(Operator::Product(constant) | Operator::Closure(constant)) => !named.contains(&constant),
        Some(Operator::Empty | Operator::Union | Operator::Anything) => false,
    }
}

fn has_no_node(alphabet: &[u32], tree: &[u32]) -> bool {
    tree.iter().any(|word| node_arity(alphabet, *word).is_none())
}

fn has_hole(alphabet: &[u32], tree: &[u32]) -> bool {
    let is_hole = |symbol: usize| words::is_hole(alphabet, symbol);
    tree.iter()
        .any(|word| words::read_node(*word).is_some_and(is_hole))
}

fn node_arity(alphabet: &[u32], word: u32) -> Option<usize> {
    words::arity(alphabet, words::read_node(word)?)
}

fn node_arities(alphabet: &[u32], tree: &[u32]) -> Vec<usize> {
    leaf_unless_known(tree.iter().map(|word| node_arity(alphabet, *word)))
}

/// A word without an arity is another number's fault; otherwise it counts as a leaf.
fn leaf_unless_known(arities: impl Iterator<Item = Option<usize>>) -> Vec<usize> {
    arities.map(|arity| arity.unwrap_or(0)).collect()
}

fn is_too_high(children: Option<Vec<Vec<usize>>>) -> bool {
    children.is_some_and(|children| postfix::heights(&children).last() > Some(&HEIGHT_LIMIT))
}

/// The arities of the nodes after the exchange. Where the used nodes are no tree or have no such node, they are those of the
/// replacement, which every result has.
fn result(used: &[usize], node: usize, replacement: &[usize]) -> Vec<usize> {
    match postfix::children(used) {
        Some(children) if node < used.len() => {
            splice(used, node, postfix::sizes(&children)[node], replacement)
        }
        _ => replacement.to_vec(),
    }
}
