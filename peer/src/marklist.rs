//! The program `marklist` as document 01 gives it: the bytes it reads, and the text it prints for them. Of
//! document 02's numbers it prints 25 and 26, and never 24.

use crate::automaton;
use crate::call::{Answer, Call, Matcher};
use crate::limits::{PROGRAM_LIMIT, SET_LIMIT, TABLE_LIMIT};
use crate::model::Model;
use crate::postfix;
use crate::words;

/// The three counts, then alphabet, rule and chapter.
pub fn encode(alphabet: &[u32], expression: &[u32], tree: &[u32]) -> Vec<u8> {
    let counts = [alphabet, expression, tree].map(|words| words.len() as u32);
    [&counts[..], alphabet, expression, tree]
        .concat()
        .into_iter()
        .flat_map(u32::to_le_bytes)
        .collect()
}

/// The three slices that the bytes announce; None where the input ends early.
fn decode(bytes: &[u8]) -> Option<[Vec<u32>; 3]> {
    let mut words = bytes
        .chunks_exact(4)
        .map(|four| u32::from_le_bytes([four[0], four[1], four[2], four[3]]));
    let counts = [words.next()?, words.next()?, words.next()?];
    let announced: u64 = counts.iter().map(|count| u64::from(*count)).sum();
    if (words.len() as u64) < announced {
        return None;
    }
    Some(counts.map(|count| words.by_ref().take(count as usize).collect()))
}

/// What the program prints for these bytes.
pub fn expected(bytes: &[u8]) -> String {
    let printed = match decode(bytes) {
        None => Err(0),
        Some([alphabet, expression, tree]) => matched(&alphabet, &expression, &tree),
    };
    printed.unwrap_or_else(|number| format!("refused {number}\n"))
}

/// The text for a rule and a chapter that are accepted, otherwise the refusal.
fn matched(alphabet: &[u32], expression: &[u32], tree: &[u32]) -> Result<String, u32> {
    let compiled = accepted(&Call::compile(alphabet, expression, vec![0; TABLE_LIMIT]))?;
    if tree.len() > PROGRAM_LIMIT {
        return Err(9);
    }
    let table = compiled.table();
    let marked = accepted(&Call::run(
        alphabet,
        table,
        tree,
        vec![0; PROGRAM_LIMIT * SET_LIMIT],
    ))?;
    let sets = &marked.after.sets;
    let listed = accepted(&Call::list(
        alphabet,
        table,
        tree.len(),
        sets,
        vec![0; tree.len()],
    ))?;

    let symbols = words::symbols(tree);
    let sizes = postfix::sizes(&postfix::tree_children(&symbols, &words::arities(alphabet)));
    let states = automaton::states(alphabet, expression);
    let mut text = format!(
        "nodes {} states {states} hits {}\n",
        tree.len(),
        listed.hits().len()
    );
    for node in listed.hits().iter().map(|node| *node as usize) {
        text += &format!("{node} {} {}\n", symbols[node], sizes[node]);
    }
    Ok(text)
}

/// What the model answers of a call, or the number by which it refuses.
fn accepted(call: &Call) -> Result<Answer, u32> {
    let answer = Model.answer(call);
    match answer.number {
        0 => Ok(answer),
        number => Err(number),
    }
}
