//! One call of an operation: all that is given to it, and what it answers and leaves. Every matcher takes calls in this
//! form, so that they differ in what they do and in nothing else.

use crate::totals::{self, Totals};
use crate::words::Hex;
use std::fmt;

#[derive(Clone, Copy, Debug, PartialEq, Eq, PartialOrd, Ord)]
pub enum Operation {
    Compile,
    Run,
    List,
    Exchange,
}

impl Operation {
    pub const ALL: [Operation; 4] = [
        Operation::Compile,
        Operation::Run,
        Operation::List,
        Operation::Exchange,
    ];
}

/// The arguments of a call; those that its operation does not take are empty or 0.
#[derive(Clone, PartialEq, Eq)]
pub struct Call {
    pub operation: Operation,
    pub alphabet: Vec<u32>,
    pub expression: Vec<u32>,
    pub table: Vec<u32>,
    pub tree: Vec<u32>,
    pub count: usize,
    pub sets: Vec<u32>,
    pub node: usize,
    pub replacement: Vec<u32>,
    pub list: Vec<u32>,
    pub totals: Totals,
}

/// What a call answers and leaves.
#[derive(Clone, PartialEq, Eq)]
pub struct Answer {
    /// 0 where the call is accepted, otherwise the number of the refusal.
    pub number: u32,
    /// What stands behind the out-parameters.
    pub values: [u32; 2],
    /// The call with its slices as they are afterwards.
    pub after: Call,
    /// Whether the words around each slice are as they were.
    pub surroundings_kept: bool,
    /// Whether the call came to its end: it does not where it touches memory that is not there.
    pub ended: bool,
}

/// What stands behind an out-parameter before a call.
const UNWRITTEN: [u32; 2] = [0xcafe_0001, 0xcafe_0002];

/// What stands in the record before a Run that is given no other.
const UNSET: Totals = [0xcafe_0003, 0xcafe_0004, 0xcafe_0005];

pub trait Matcher {
    /// Performs the call on copies of its slices.
    fn answer(&mut self, call: &Call) -> Answer;

    /// Performs the call where the table slice is said to have so many words, and those that the call does not have are
    /// not in memory. A matcher that is given no pointers cannot find out.
    fn answer_said(&mut self, call: &Call, _said: usize) -> Answer {
        self.answer(call)
    }
}

impl Call {
    /// A call with nothing but an alphabet.
    pub fn empty(operation: Operation, alphabet: &[u32]) -> Call {
        Call {
            operation,
            alphabet: alphabet.to_vec(),
            expression: Vec::new(),
            table: Vec::new(),
            tree: Vec::new(),
            count: 0,
            sets: Vec::new(),
            node: 0,
            replacement: Vec::new(),
            list: Vec::new(),
            totals: [0; 3],
        }
    }

    pub fn compile(alphabet: &[u32], expression: &[u32], table: Vec<u32>) -> Call {
        Call {
            expression: expression.to_vec(),
            table,
            ..Call::empty(Operation::Compile, alphabet)
        }
    }

    pub fn run(alphabet: &[u32], table: &[u32], tree: &[u32], sets: Vec<u32>) -> Call {
        Call {
            table: table.to_vec(),
            tree: tree.to_vec(),
            sets,
            totals: UNSET,
            ..Call::empty(Operation::Run, alphabet)
        }
    }

    pub fn list(alphabet: &[u32], table: &[u32], count: usize, sets: &[u32], list: Vec<u32>) -> Call {
        Call {
            table: table.to_vec(),
            count,
            sets: sets.to_vec(),
            list,
            ..Call::empty(Operation::List, alphabet)
        }
    }

    /// The record is right for the used nodes.
    pub fn exchange(
        alphabet: &[u32],
        table: &[u32],
        tree: Vec<u32>,
        count: usize,
        sets: Vec<u32>,
        node: usize,
        replacement: &[u32],
    ) -> Call {
        let mut call = Call {
            table: table.to_vec(),
            tree,
            count,
            sets,
            node,
            replacement: replacement.to_vec(),
            ..Call::empty(Operation::Exchange, alphabet)
        };
        call.totals = totals::right(&call);
        call
    }

    /// How many words of the record are lent: it is lent as a whole, or not at all.
    fn lent_totals(&self) -> usize {
        match self.operation {
            Operation::Run | Operation::Exchange => self.totals.len(),
            Operation::Compile | Operation::List => 0,
        }
    }

    /// The slices with document 01's names, in its order, and then the record.
    pub fn slices(&self) -> [(&'static str, &[u32]); 8] {
        [
            ("alphabet", &self.alphabet),
            ("rule", &self.expression),
            ("table", &self.table),
            ("chapter", &self.tree),
            ("marks", &self.sets),
            ("replacement", &self.replacement),
            ("list", &self.list),
            ("totals", &self.totals[..self.lent_totals()]),
        ]
    }

    /// The same slices to be lent.
    pub fn slices_mut(&mut self) -> [&mut [u32]; 8] {
        let lent_totals = self.lent_totals();
        [
            &mut self.alphabet,
            &mut self.expression,
            &mut self.table,
            &mut self.tree,
            &mut self.sets,
            &mut self.replacement,
            &mut self.list,
            &mut self.totals[..lent_totals],
        ]
    }
}

/// The whole call in hexadecimal, so that it can be replayed.
impl fmt::Display for Call {
    fn fmt(&self, f: &mut fmt::Formatter<'_>) -> fmt::Result {
        write!(
            f,
            "    {:?} count {} element {}",
            self.operation, self.count, self.node
        )?;
        for (name, words) in self.slices() {
            if !words.is_empty() {
                write!(f, "\n    {name} {}", Hex(words))?;
            }
        }
        Ok(())
    }
}

impl Answer {
    /// The answer with this number of a call that writes nothing.
    pub fn unwritten(number: u32, call: &Call) -> Answer {
        Answer {
            number,
            values: UNWRITTEN,
            after: call.clone(),
            surroundings_kept: true,
            ended: true,
        }
    }

    /// The table that an accepted Compile wrote.
    pub fn table(&self) -> &[u32] {
        &self.after.table[..self.values[0] as usize]
    }

    /// The hits that an accepted List wrote.
    pub fn hits(&self) -> &[u32] {
        &self.after.list[..self.values[0] as usize]
    }
}
