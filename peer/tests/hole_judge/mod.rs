//! A matcher that is wrong about holes in one respect.

use peer::automaton;
use peer::call::{Answer, Call, Matcher, Operation};
use peer::cases::holes::{HOLE_IN_CHAPTER, HOLE_IN_REPLACEMENT};
use peer::exchange::splice;
use peer::generate::holes::without_marks;
use peer::kinds::HOLE;
use peer::model::answer_with;
use peer::postfix;
use peer::refusals::{self, Condition};
use peer::words::{self, Entry, Operator, TableWord};

#[derive(Clone, Copy, PartialEq, Debug)]
pub enum Fault {
    None,
    HoleIsNoEntry,
    HoleIsAnyConstant,
    HoleOfAnyRankIsTaken,
    HoleIsNotCounted,
    HoleHasNoEntries,
    HoleHasNoMoves,
    AnyConstantIsNamed,
    HolesAloneAreNamed,
    HoleIsNoSymbol,
    HoleInARuleIsRefusedBy26,
    ListRefusesHoles,
    FirstHoleIsKnown,
    HolesBelow32AreKnown,
    HolesWithMovesAreKnown,
    RootIsLookedAt,
    FirstElementIsLookedAt,
    FirstElementIsLeftOut,
    LastLeafIsLeftOut,
    RunLooksAtNothing,
    UsedChapterIsLookedAt,
    ReplacementIsLookedAt,
    WholeSliceIsLookedAt,
    ResultIsLookedAt,
    WhatGivesWayIsLeftOut,
    FirstExchangeAloneIsJudged,
    RefusedCallIsCarriedOut,
    SmallChaptersAreLookedAt,
    LargeChaptersAreLookedAt,
    FirstOfEachRunIsLeftOut(usize),
    LastOfEachRunIsLeftOut(usize),
    LastRunIsLeftOut(usize),
    ChapterIsJudgedBefore(Operation, u32),
    ChapterIsJudgedAfter(Operation, u32),
    ReplacementIsJudgedBefore(u32),
    ReplacementIsJudgedAfter(Condition),
}

/// From so many elements on a chapter is large.
const LARGE: usize = 513;

pub struct Judge {
    fault: Fault,
    exchanges: usize,
}

impl Matcher for Judge {
    fn answer(&mut self, call: &Call) -> Answer {
        self.exchanges += usize::from(call.operation == Operation::Exchange);
        let mut taken = call.clone();
        taken.alphabet = call.alphabet.iter().map(|word| self.entry(*word)).collect();
        let refusal = self.refusal(&taken);
        let mut answer = answer_with(refusal, &taken);
        // A call that has another fault cannot be carried out.
        let is_refused = answer.number == 26 && refusals::faults(&taken).len() == 1;
        if self.fault == Fault::RefusedCallIsCarriedOut && is_refused {
            answer = Answer {
                number: answer.number,
                values: answer.values,
                ..answer_with(None, &taken)
            };
        }
        if call.operation == Operation::Compile && answer.number == 0 {
            self.spoil_table(&mut answer);
        }
        answer.after.alphabet.clone_from(&call.alphabet);
        answer
    }
}

/// Puts a condition among those found, or takes it away.
fn set(found: &mut Vec<Condition>, condition: Condition, holds: bool) {
    found.retain(|other| *other != condition);
    if holds {
        found.push(condition);
    }
}

impl Judge {
    pub fn with(fault: Fault) -> Judge {
        Judge { fault, exchanges: 0 }
    }

    /// The alphabet word by which the model takes this one as the judge does.
    fn entry(&self, word: u32) -> u32 {
        let plain = word & !HOLE;
        let is_hole = Entry::read(word) == Some(Entry::Hole);
        match self.fault {
            Fault::HoleIsNoEntry if is_hole => 0,
            Fault::HoleIsAnyConstant if is_hole => plain,
            Fault::HoleOfAnyRankIsTaken if !is_hole => plain,
            _ => word,
        }
    }

    /// The first condition that holds, in the judge's order and by its reading of holes.
    fn refusal(&self, call: &Call) -> Option<Condition> {
        let mut found = refusals::faults(call);
        if self.fault == Fault::HoleIsNotCounted {
            let others = words::leaves(&call.alphabet).len();
            set(&mut found, Condition::first(2), !(1..=16).contains(&others));
        }
        match call.operation {
            Operation::Compile => self.judge_rule(call, &mut found),
            Operation::Run => set(&mut found, HOLE_IN_CHAPTER, self.is_in_chapter(call)),
            Operation::List => {
                let has_hole = !words::holes(&call.alphabet).is_empty();
                set(
                    &mut found,
                    HOLE_IN_CHAPTER,
                    self.fault == Fault::ListRefusesHoles && has_hole,
                );
            }
            Operation::Exchange => {
                set(&mut found, HOLE_IN_CHAPTER, self.is_in_chapter(call));
                set(&mut found, HOLE_IN_REPLACEMENT, self.is_in_replacement(call));
            }
        }
        let order = self.order(call.operation);
        order.into_iter().find(|condition| found.contains(condition))
    }

    fn order(&self, operation: Operation) -> Vec<Condition> {
        let mut order = refusals::conditions(operation);
        let (moved, beside, places) = match self.fault {
            Fault::HoleInARuleIsRefusedBy26 | Fault::ListRefusesHoles => {
                order.push(HOLE_IN_CHAPTER);
                return order;
            }
            Fault::ChapterIsJudgedBefore(of, number) if of == operation => {
                (HOLE_IN_CHAPTER, Condition::first(number), 0)
            }
            Fault::ChapterIsJudgedAfter(of, number) if of == operation => {
                (HOLE_IN_CHAPTER, Condition::first(number), 1)
            }
            Fault::ReplacementIsJudgedBefore(number) => (HOLE_IN_REPLACEMENT, Condition::first(number), 0),
            Fault::ReplacementIsJudgedAfter(condition) => (HOLE_IN_REPLACEMENT, condition, 1),
            _ => return order,
        };
        order.retain(|condition| *condition != moved);
        if let Some(place) = order.iter().position(|condition| *condition == beside) {
            order.insert(place + places, moved);
        }
        order
    }

    fn judge_rule(&self, call: &Call, found: &mut Vec<Condition>) {
        let is_hole = |symbol: usize| words::is_hole(&call.alphabet, symbol);
        let rule = || call.expression.iter().filter_map(|word| Operator::read(*word));
        let has_hole = rule().any(|word| matches!(word, Operator::Symbol(symbol) if is_hole(symbol)));
        let four = Condition::first(4);
        match self.fault {
            Fault::AnyConstantIsNamed => {
                let mut plain = call.clone();
                plain.alphabet = without_marks(&call.alphabet);
                set(found, four, refusals::faults(&plain).contains(&four));
            }
            Fault::HolesAloneAreNamed => {
                let names_other = rule().any(|word| match word {
                    Operator::Product(constant) | Operator::Closure(constant) => !is_hole(constant),
                    _ => false,
                });
                set(found, four, found.contains(&four) || names_other);
            }
            Fault::HoleIsNoSymbol => set(found, four, found.contains(&four) || has_hole),
            Fault::HoleInARuleIsRefusedBy26 => set(found, HOLE_IN_CHAPTER, has_hole),
            _ => {}
        }
    }

    /// The table as the judge compiles it.
    fn spoil_table(&self, answer: &mut Answer) {
        let call = &mut answer.after;
        let holes = words::holes(&call.alphabet);
        let table = match self.fault {
            // The holes are symbols with a child: a rule in which one stands cannot be compiled so.
            Fault::HoleHasNoEntries => {
                let mut other = call.alphabet.clone();
                holes.iter().for_each(|hole| other[*hole] = words::entry_word(1));
                automaton::table(&other, &call.expression)
            }
            Fault::HoleHasNoMoves => {
                let is_on_hole = |word: &u32| match TableWord::read(*word) {
                    Some(TableWord::Transition { symbol, .. }) => holes.contains(&symbol),
                    _ => false,
                };
                let mut table = call.table[..answer.values[0] as usize].to_vec();
                table.retain(|word| !is_on_hole(word));
                table[1] = TableWord::Length(table.len()).word();
                Some(table)
            }
            _ => None,
        };
        if let Some(table) = table {
            call.table[..table.len()].copy_from_slice(&table);
            answer.values[0] = table.len() as u32;
        }
    }

    fn is_in_chapter(&self, call: &Call) -> bool {
        let is_run = call.operation == Operation::Run;
        let used = match self.fault {
            Fault::RunLooksAtNothing if is_run => return false,
            _ if is_run => &call.tree[..],
            Fault::ReplacementIsLookedAt => return false,
            Fault::FirstExchangeAloneIsJudged if self.exchanges > 1 => return false,
            Fault::WholeSliceIsLookedAt => &call.tree,
            _ => &call.tree[..call.count.min(call.tree.len())],
        };
        let size = match is_run {
            true => None,
            false => subtree_size(&call.alphabet, used, call.node),
        };
        match (self.fault, size) {
            (Fault::WhatGivesWayIsLeftOut, Some(size)) => {
                self.holds_hole(call, &splice(used, call.node, size, &[]))
            }
            (Fault::ResultIsLookedAt, Some(size)) => {
                self.holds_hole(call, &splice(used, call.node, size, &call.replacement))
            }
            _ => self.holds_hole(call, used),
        }
    }

    fn is_in_replacement(&self, call: &Call) -> bool {
        match self.fault {
            Fault::UsedChapterIsLookedAt => false,
            Fault::FirstExchangeAloneIsJudged if self.exchanges > 1 => false,
            _ => self.holds_hole(call, &call.replacement),
        }
    }

    fn holds_hole(&self, call: &Call, tree: &[u32]) -> bool {
        let is_hole = |symbol: usize| self.is_hole(call, symbol);
        tree.iter().enumerate().any(|(place, word)| {
            self.looks_at(place, tree.len()) && words::read_node(*word).is_some_and(is_hole)
        })
    }

    fn is_hole(&self, call: &Call, symbol: usize) -> bool {
        let has_move = || {
            let mut words = call.table.iter().filter_map(|word| TableWord::read(*word));
            words.any(|word| matches!(word, TableWord::Transition { symbol: own, .. } if own == symbol))
        };
        words::is_hole(&call.alphabet, symbol)
            && match self.fault {
                Fault::FirstHoleIsKnown => words::holes(&call.alphabet)[0] == symbol,
                Fault::HolesBelow32AreKnown => symbol < 32,
                Fault::HolesWithMovesAreKnown => has_move(),
                _ => true,
            }
    }

    fn looks_at(&self, place: usize, nodes: usize) -> bool {
        let is_small = nodes < LARGE;
        match self.fault {
            Fault::RootIsLookedAt => place + 1 == nodes,
            Fault::FirstElementIsLookedAt => place == 0,
            Fault::FirstElementIsLeftOut => place > 0,
            Fault::LastLeafIsLeftOut => place + 2 != nodes,
            Fault::SmallChaptersAreLookedAt => is_small,
            Fault::LargeChaptersAreLookedAt => !is_small,
            Fault::FirstOfEachRunIsLeftOut(words) => is_small || place % words != 0,
            Fault::LastOfEachRunIsLeftOut(words) => is_small || place % words != words - 1,
            Fault::LastRunIsLeftOut(words) => is_small || place < nodes - nodes % words,
            _ => true,
        }
    }
}

/// How many words the subtree of an element has, where the words are one tree with that element.
fn subtree_size(alphabet: &[u32], tree: &[u32], node: usize) -> Option<usize> {
    let arity = |word: &u32| words::arity(alphabet, words::read_node(*word)?);
    let arities: Vec<usize> = tree.iter().map(arity).collect::<Option<_>>()?;
    postfix::sizes(&postfix::children(&arities)?).get(node).copied()
}
