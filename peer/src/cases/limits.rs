//! The limits that document 01 names of alphabets, rules and tables, at each and one beyond: their lengths, and the
//! numbers of constants and states.

use crate::automaton;
use crate::call::Call;
use crate::cases::largest::largest;
use crate::chance::Random;
use crate::compare::Comparison;
use crate::generate;
use crate::language::membership::Membership;
use crate::language::Expression;
use crate::length_word::with_length_word;
use crate::limits::{
    ARITY_LIMIT, CONSTANT_LIMIT, EXPRESSION_LIMIT, SET_LIMIT, STATE_LIMIT, SYMBOL_LIMIT, TABLE_LIMIT,
};
use crate::marks::Table;
use crate::postfix;
use crate::words::{self, entry_word, node_word, Operator, TableWord};

pub fn compare(comparison: &mut Comparison) {
    alphabets(comparison);
    rules(comparison);
    states(comparison);
    tables(comparison);
}

/// An alphabet with so many constants, then so many symbols of arity 1.
pub fn alphabet(constants: usize, unary: usize) -> Vec<u32> {
    [vec![entry_word(0); constants], vec![entry_word(1); unary]].concat()
}

/// So many closures over one constant, over that constant.
pub fn closures(count: usize) -> Vec<u32> {
    postfix::chain(Operator::Symbol(0).word(), Operator::Closure(0).word(), 1 + count)
}

/// Expects this number of the model as well, so that a limit is not only compared but also where it is said to be.
pub fn expect(comparison: &mut Comparison, wrong: &str, call: &Call, number: u32) {
    let answer = comparison.call(wrong, call);
    comparison.check(wrong, answer.number == number, || {
        format!("    number {} instead of {number}\n{call}", answer.number)
    });
}

fn alphabets(comparison: &mut Comparison) {
    // constants, symbols in all, number
    let lengths = [
        (0, 0, 1),
        (1, 1, 0),
        (1, SYMBOL_LIMIT, 0),
        (1, SYMBOL_LIMIT + 1, 1),
        (CONSTANT_LIMIT, SYMBOL_LIMIT, 0),
        (CONSTANT_LIMIT, SYMBOL_LIMIT + 1, 1),
        (CONSTANT_LIMIT + 1, CONSTANT_LIMIT + 1, 2),
        (CONSTANT_LIMIT + 1, SYMBOL_LIMIT, 2),
        (SYMBOL_LIMIT, SYMBOL_LIMIT, 2),
        (SYMBOL_LIMIT + 1, SYMBOL_LIMIT + 1, 1),
        (0, 1, 2),
        (0, SYMBOL_LIMIT, 2),
        (CONSTANT_LIMIT, 5 * SYMBOL_LIMIT, 1),
    ];
    for (constants, symbols, number) in lengths {
        let own = alphabet(constants, symbols - constants);
        let call = Call::compile(&own, &closures(0), vec![0; 10]);
        expect(
            comparison,
            "an alphabet's length is judged otherwise",
            &call,
            number,
        );
    }
    for arity in 0..2 * ARITY_LIMIT + 2 {
        let own = [entry_word(0), entry_word(arity)];
        let call = Call::compile(&own, &closures(0), vec![0; 10]);
        let number = if arity <= ARITY_LIMIT { 0 } else { 1 };
        expect(comparison, "an arity is judged otherwise", &call, number);
    }
    let last = SYMBOL_LIMIT - 1;
    for symbol in [last - 1, last, last + 1, last + 2, 127, 128, 192, 255] {
        let rule = [Operator::Symbol(0).word(), Operator::Symbol(symbol).word()];
        let call = Call::compile(&alphabet(1, last), &rule, vec![0; 20]);
        let number = if symbol <= last { 0 } else { 4 };
        expect(comparison, "a symbol number is judged otherwise", &call, number);
    }
}

fn rules(comparison: &mut Comparison) {
    const MOST: usize = EXPRESSION_LIMIT;
    let lengths = [0, 1, 2, MOST - 1, MOST, MOST + 1, 5 * MOST];
    for (length, number) in lengths.into_iter().zip([3, 0, 0, 0, 0, 3, 3]) {
        let mut rule = closures(length);
        rule.truncate(length);
        let call = Call::compile(&alphabet(2, 1), &rule, vec![0; 1000]);
        expect(comparison, "a rule's length is judged otherwise", &call, number);
    }
}

/// 60 words with entries and 4 constants over 16 constants; 61 closures over one constant.
fn states(comparison: &mut Comparison) {
    let (sixteen, full) = largest();
    let call = Call::compile(&sixteen, &full, vec![7; TABLE_LIMIT]);
    let answer = comparison.call("1,024 states are judged otherwise", &call);
    // Behind the last word's exit are its entries.
    let head = TableWord::Head {
        states: STATE_LIMIT,
        accepting: STATE_LIMIT - 1 - CONSTANT_LIMIT,
    };
    comparison.check(
        "60 words with entries and 4 constants are not 1,024 states",
        answer.number == 0 && answer.after.table[0] == head.word(),
        || call.to_string(),
    );
    let tree = generate::tree(&mut Random::new(1), &sixteen, 300);
    run_and_list(comparison, &sixteen, answer.table(), &words::node_words(&tree));
    let arities = words::arities(&sixteen);
    let read = Expression::read(&sixteen, &full).expect("an expression");
    let decided = Membership::new(&read, &arities).subtrees(&tree);
    let own = Table::read(&sixteen, answer.table()).expect("a table");
    let reached = own.reached_by_all(&tree, &arities);
    let hits: Vec<bool> = reached.iter().map(|set| set[own.accepting]).collect();
    comparison.check(
        "1,024 states have other hits than the language",
        decided == hits,
        String::new,
    );

    for (count, states, number) in [(59, 1004, 0), (60, 1021, 0), (61, 1038, 6), (63, 1072, 6)] {
        let rule = closures(count);
        comparison.check(
            "closures over one constant have another state count",
            automaton::states(&sixteen, &rule) == states,
            String::new,
        );
        let call = Call::compile(&sixteen, &rule, vec![0; TABLE_LIMIT]);
        expect(
            comparison,
            "the number of states is judged otherwise",
            &call,
            number,
        );
    }
}

fn tables(comparison: &mut Comparison) {
    let own = alphabet(1, 1);
    let tree = [node_word(0), node_word(1)];
    const LAST: usize = STATE_LIMIT - 1;
    for states in [0, 1, 31, 32, 33, 64, 65, LAST, STATE_LIMIT, STATE_LIMIT + 1, 2047] {
        for accepting in [0, 1, states.max(1) - 1, states.min(LAST)] {
            let head = TableWord::Head {
                states,
                accepting: accepting.min(LAST),
            };
            let into_last = TableWord::Transition {
                symbol: 0,
                target: states.clamp(1, STATE_LIMIT) - 1,
            };
            run_and_list(comparison, &own, &with_length_word(&[head, into_last]), &tree);
        }
    }
    for length in [2, 3, TABLE_LIMIT - 1, TABLE_LIMIT, TABLE_LIMIT + 1] {
        let table = long_table(length);
        let call = Call::run(&own, &table, &tree, vec![1; tree.len() * SET_LIMIT]);
        let number = if length <= TABLE_LIMIT { 0 } else { 8 };
        expect(comparison, "a table's length is judged otherwise", &call, number);
    }
    run_and_list(comparison, &own, &long_chain(), &tree);
}

/// A table of so many words, head and length word among them, whose epsilon transitions go round through the most states.
fn long_table(length: usize) -> Vec<u32> {
    let mut table = vec![FULL_HEAD];
    table.extend((2..length).map(|place| {
        let from = (place * 5) % STATE_LIMIT;
        TableWord::Epsilon {
            from,
            to: (from + 5) % STATE_LIMIT,
        }
    }));
    with_length_word(&table)
}

/// The head of a table with the most states, of which the last accepts.
const FULL_HEAD: TableWord = TableWord::Head {
    states: STATE_LIMIT,
    accepting: STATE_LIMIT - 1,
};

/// Epsilon transitions through the most states, the last written first.
fn long_chain() -> Vec<u32> {
    let mut table = vec![FULL_HEAD];
    table.extend(
        (0..STATE_LIMIT - 1)
            .rev()
            .map(|from| TableWord::Epsilon { from, to: from + 1 }),
    );
    table.push(TableWord::Transition { symbol: 0, target: 0 });
    with_length_word(&table)
}

/// Runs and lists, with room for the largest state sets.
pub fn run_and_list(comparison: &mut Comparison, alphabet: &[u32], table: &[u32], tree: &[u32]) {
    let nodes = tree.len();
    let marked = comparison.call(
        "a table or tree at a limit has other marks",
        &Call::run(alphabet, table, tree, vec![9; nodes * SET_LIMIT]),
    );
    comparison.call(
        "a table or tree at a limit has another list",
        &Call::list(alphabet, table, nodes, &marked.after.sets, vec![9; nodes]),
    );
}
