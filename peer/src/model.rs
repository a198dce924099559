//! The four operations as documents 01 and 02 give them: the first fault, or else what the definitions write.

use crate::automaton;
use crate::call::{Answer, Call, Matcher, Operation};
use crate::exchange::exchange_of;
use crate::marks::Table;
use crate::refusals::{self, Condition};
use crate::totals;
use crate::words;

pub struct Model;

impl Matcher for Model {
    fn answer(&mut self, call: &Call) -> Answer {
        answer_with(refusals::refusal(call), call)
    }
}

/// What the call answers and leaves where it is refused by this condition, or accepted without one.
pub fn answer_with(refusal: Option<Condition>, call: &Call) -> Answer {
    if let Some(condition) = refusal {
        return Answer::unwritten(condition.number, call);
    }
    let mut answer = Answer::unwritten(0, call);
    match call.operation {
        Operation::Compile => write_table(&mut answer),
        Operation::Run => write_sets(&mut answer),
        Operation::List => write_matches(&mut answer),
        Operation::Exchange => write_exchange(&mut answer),
    }
    answer
}

/// The state set words that Run writes for a tree, those of the first node first.
pub fn state_sets(alphabet: &[u32], table: &Table, tree: &[u32]) -> Vec<u32> {
    table
        .reached_by_all(&words::symbols(tree), &words::arities(alphabet))
        .iter()
        .flat_map(|set| table.set_words(set))
        .collect()
}

fn write_table(answer: &mut Answer) {
    let call = &mut answer.after;
    let table = automaton::table(&call.alphabet, &call.expression).expect("an expression");
    call.table[..table.len()].copy_from_slice(&table);
    answer.values[0] = table.len() as u32;
}

fn write_sets(answer: &mut Answer) {
    let call = &mut answer.after;
    let table = Table::read(&call.alphabet, &call.table).expect("a table");
    let sets = state_sets(&call.alphabet, &table, &call.tree);
    call.sets[..sets.len()].copy_from_slice(&sets);
    answer.values = [call.tree.len() as u32, words::count_ones(&sets)];
    call.totals = totals::counted(&table, &sets);
}

fn write_matches(answer: &mut Answer) {
    let call = &mut answer.after;
    let table = Table::read(&call.alphabet, &call.table).expect("a table");
    let sets = call.sets.chunks(table.width());
    let matches: Vec<u32> = (0..call.count as u32)
        .zip(sets)
        .filter(|(_, own)| table.is_match(own))
        .map(|(node, _)| node)
        .collect();
    call.list[..matches.len()].copy_from_slice(&matches);
    answer.values[0] = matches.len() as u32;
}

fn write_exchange(answer: &mut Answer) {
    let call = &mut answer.after;
    let table = Table::read(&call.alphabet, &call.table).expect("a table");
    let (used, used_sets) = (call.count, call.count * table.width());
    let new = exchange_of(call, &table);
    let sets = new.tree.rows.concat();
    let before = totals::counted(&table, &call.sets[..used_sets]);
    let after = totals::counted(&table, &sets);
    call.totals = totals::moved(call.totals, before, after).map(|total| total as u32);
    overwrite(&mut call.tree, used, &words::node_words(&new.tree.symbols));
    overwrite(&mut call.sets, used_sets, &sets);
    answer.values = [new.tree.symbols.len() as u32, new.recomputed as u32];
}

/// Words that fall out of use become zero; words beyond both lengths are untouched.
fn overwrite(slice: &mut [u32], used: usize, words: &[u32]) {
    slice[..words.len()].copy_from_slice(words);
    if words.len() < used {
        slice[words.len()..used].fill(0);
    }
}
