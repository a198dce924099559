//! Document 02's U1, "Tables end to end": a table has as many words as it says, whatever follows it in the slice. Slices
//! longer than any table, tables one after another, and the slices that Compile leaves.

use crate::automaton;
use crate::call::Call;
use crate::cases::examples::{self, D};
use crate::cases::in_slices::{full, in_slice, same_as_alone, source, tables, LONG, MOVE};
use crate::cases::largest::largest;
use crate::chance::Random;
use crate::compare::Comparison;
use crate::generate;
use crate::length_word::say;
use crate::limits::TABLE_LIMIT;
use crate::words::{Operator, TableWord};

pub fn compare(comparison: &mut Comparison) {
    followed(comparison);
    last_word(comparison);
    end_to_end(comparison);
    compiled(comparison);
}

/// Words of all sorts behind a table, one and as many as make a slice longer than any table.
fn followed(comparison: &mut Comparison) {
    for (alphabet, table) in tables() {
        for behind in sorts(&alphabet, &table) {
            let mut slice = table.clone();
            slice.extend(behind.iter().cycle().take(LONG - table.len()));
            let wrong = "what follows a table is not ignored";
            for length in [table.len() + 1, LONG] {
                same_as_alone(comparison, wrong, &alphabet, &table, &slice[..length]);
            }
        }
    }
}

/// What may follow a table: each is repeated.
fn sorts(alphabet: &[u32], table: &[u32]) -> Vec<Vec<u32>> {
    let mut random = Random::new(2);
    vec![
        vec![0],
        vec![u32::MAX],
        table[..1].to_vec(),
        table[1..2].to_vec(),
        vec![TableWord::Epsilon { from: 0, to: 0 }.word()],
        vec![TableWord::Transition { symbol: 0, target: 0 }.word()],
        vec![TableWord::Child(0).word()],
        table.to_vec(),
        generate::table(&mut random, alphabet),
        random.words(LONG),
    ]
}

/// The last word of a table of the most words counts, and the table's end is not the slice's: without it, a is no match.
fn last_word(comparison: &mut Comparison) {
    let own = examples::alphabet();
    let tree = examples::tree();
    let table = full();
    for length in [TABLE_LIMIT, TABLE_LIMIT + 1, LONG] {
        for (count, hits) in [(TABLE_LIMIT - 1, vec![2, 3, 4]), (TABLE_LIMIT, vec![0, 2, 3, 4])] {
            let mut slice = in_slice(&table, length, MOVE);
            say(&mut slice, count);
            let wrong = "the last word of the longest table is taken otherwise";
            let marked = comparison.call(wrong, &Call::run(&own, &slice, &tree, vec![0; 7]));
            let list = Call::list(&own, &slice, 7, &marked.after.sets, vec![0; 7]);
            let listed = comparison.call(wrong, &list);
            comparison.check(wrong, listed.number == 0 && listed.hits() == hits, || {
                list.to_string()
            });
        }
    }
}

/// Three tables one after another, each used from its own first word on, to the end of them all and of what follows them.
fn end_to_end(comparison: &mut Comparison) {
    let wrong = "a table among others is taken otherwise";
    for case in 0..60 {
        let mut random = Random::of_case("end to end", 1, case);
        let mut own = examples::alphabet();
        let mut tables = vec![source()];
        if case > 0 {
            own = generate::alphabet(&mut random);
            tables = vec![generate::table(&mut random, &own)];
        }
        while tables.len() < 3 {
            let rule = generate::expression(&mut random, &own, 6);
            tables.push(automaton::table(&own, &rule).expect("an expression"));
        }
        // Each of them is first, second and third.
        tables.rotate_left(case as usize % 3);
        let mut image = tables.concat();
        if case % 2 == 1 {
            image.extend(generate::behind(&mut random));
        }
        let mut start = 0;
        for table in &tables {
            same_as_alone(comparison, wrong, &own, table, &image[start..]);
            start += table.len();
        }
    }
}

/// Compile into slices of a word less than the table, which is what document 01 asks for, of as many and of more; and the
/// slice, as it then is, for the others.
fn compiled(comparison: &mut Comparison) {
    let own = examples::alphabet();
    let small = |operator: Operator| (own.clone(), vec![operator.word()]);
    // rule, table words
    for ((alphabet, rule), count) in [
        (small(Operator::Empty), 2),
        (small(Operator::Symbol(D)), 3),
        ((own.clone(), examples::expression()), 37),
        (largest(), 1148),
    ] {
        for length in [0, 1, count - 1, count, count + 1, TABLE_LIMIT + 1, LONG] {
            let lent: Vec<u32> = (0..length as u32).map(|place| 0x5eed_0000 + place).collect();
            let call = Call::compile(&alphabet, &rule, lent.clone());
            let wrong = "a table is compiled into a slice otherwise";
            let answer = comparison.call(wrong, &call);
            let slice = &answer.after.table;
            let is_right = if length < count {
                answer.number == 7 && *slice == lent
            } else {
                answer.number == 0
                    && answer.values[0] as usize == count
                    && slice[1] == TableWord::Length(count).word()
                    && slice[count..] == lent[count..]
            };
            comparison.check(wrong, is_right, || call.to_string());
            if answer.number == 0 {
                let wrong = "the slice that Compile left is taken otherwise";
                same_as_alone(comparison, wrong, &alphabet, answer.table(), slice);
            }
        }
    }
}
