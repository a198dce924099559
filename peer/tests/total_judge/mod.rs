//! A matcher that is wrong about the record of totals in one respect.

use peer::call::{Answer, Call, Matcher, Operation};
use peer::cases::totals::{EACH_TOTAL, TOTALS_OUTSIDE};
use peer::limits::TOTAL_LIMIT;
use peer::marks::Table;
use peer::model::{answer_with, state_sets, Model};
use peer::postfix;
use peer::refusals::{self, Condition};
use peer::totals::{self, Totals, CELLS, MATCHES, NODES};
use peer::words;

#[derive(Clone, Copy, PartialEq, Debug)]
pub enum Fault {
    None,
    RunLeavesTheRecord,
    RunAddsToTheRecord,
    RunLeaves(usize),
    RunCountsTheWholeSlice,
    RunLooksAtTheRootAlone,
    RunJudgesTheRecord,
    RefusedRunSetsTheRecord,
    IsSetAfresh,
    IsLeft,
    TotalIsLeft(usize),
    FirstExchangeAloneMovesIt,
    HitsOfWhatGivesWayAreForgotten,
    WhatGivesWayIsItsRootAlone,
    ReplacementIsItsRootAlone,
    ReplacementIsCountedTo(usize),
    OldCellsOfAncestorsAreForgotten,
    AncestorsAreForgotten,
    LastAncestorIsForgotten,
    SpareBitsAreNotCounted,
    FirstWordsAreCounted,
    HitsAreThoseOfTheFirstState,
    MarksAreTakenAsTrue,
    MostIs(u32),
    ElementsAreHeldToTheMost,
    NothingIsJudged,
    IsNotJudged(usize),
    ElementsAloneAreJudged,
    BelowZeroIsTaken,
    BelowZeroIsZero,
    AboveIsTaken,
    AboveIsCut,
    SumsBeginAgain,
    SumsAreSigned,
    RecordBeforeIsJudged,
    WrongRecordIsRefused,
    UnmovedIsNotJudged,
    IsTakenAwayFirst,
    IsAddedFirst,
    RefusedCallIsCarriedOut,
    RefusedCallWritesMarks,
    RefusedCallWritesAnAnswer,
    RefusedCallMovesTheRecord,
    RefusedBy16MovesTheRecord,
    IsJudgedBefore(Condition),
    NearBoundsMoreIsWorkedOut,
    NearBoundsTheRootIsLeft,
}

pub struct Judge {
    fault: Fault,
    exchanges: usize,
}

impl Matcher for Judge {
    fn answer(&mut self, call: &Call) -> Answer {
        match call.operation {
            Operation::Run => self.run(call),
            Operation::Exchange => self.exchange(call),
            Operation::Compile | Operation::List => Model.answer(call),
        }
    }
}

impl Judge {
    pub fn with(fault: Fault) -> Judge {
        Judge { fault, exchanges: 0 }
    }

    fn run(&self, call: &Call) -> Answer {
        let mut answer = Model.answer(call);
        let totals = &mut answer.after.totals;
        match self.fault {
            Fault::RefusedRunSetsTheRecord if answer.number != 0 => *totals = [0; 3],
            _ if answer.number != 0 => {}
            Fault::RunLeavesTheRecord => *totals = call.totals,
            Fault::RunLeaves(total) => totals[total] = call.totals[total],
            Fault::RunAddsToTheRecord => {
                *totals = EACH_TOTAL.map(|total| totals[total].wrapping_add(call.totals[total]));
            }
            Fault::RunCountsTheWholeSlice => totals[CELLS] = words::count_ones(&answer.after.sets),
            Fault::RunLooksAtTheRootAlone => {
                let table = table(call);
                let root = &answer.after.sets[(call.tree.len() - 1) * table.width()..];
                totals[MATCHES] = u32::from(table.is_match(root));
            }
            Fault::RunJudgesTheRecord if call.totals.iter().any(|total| *total > TOTAL_LIMIT) => {
                answer = Answer::unwritten(TOTALS_OUTSIDE.number, call);
            }
            _ => {}
        }
        answer
    }

    fn exchange(&mut self, call: &Call) -> Answer {
        self.exchanges += 1;
        let mut found = refusals::faults(call);
        if let Fault::IsJudgedBefore(condition) = self.fault {
            if found.contains(&TOTALS_OUTSIDE) && found.contains(&condition) {
                return Answer::unwritten(TOTALS_OUTSIDE.number, call);
            }
        }
        found.retain(|condition| *condition != TOTALS_OUTSIDE);
        if let Some(first) = found.first() {
            let mut answer = answer_with(Some(*first), call);
            if self.fault == Fault::RefusedBy16MovesTheRecord && first.number == 16 {
                answer.after.totals[NODES] = call.totals[NODES].wrapping_add(1);
            }
            return answer;
        }
        let carried_out = answer_with(None, call);
        let out = self.moved(call, &carried_out);
        if self.refuses(call, &carried_out, out) {
            self.refused(call, carried_out)
        } else {
            self.accepted(call, carried_out, out)
        }
    }

    /// What each total becomes, as the judge counts.
    fn moved(&self, call: &Call, carried_out: &Answer) -> [i64; 3] {
        let record = call.totals.map(i64::from);
        let mut worked = Worked::of(self.fault, call, carried_out);
        let [before, after] = match self.fault {
            Fault::IsLeft => return record,
            Fault::FirstExchangeAloneMovesIt if self.exchanges > 1 => return record,
            _ => worked.totals(),
        };
        let mut out = EACH_TOTAL.map(|total| record[total] - before[total] + after[total]);
        match self.fault {
            Fault::IsSetAfresh => out = after,
            Fault::TotalIsLeft(total) => out[total] = record[total],
            _ => {}
        }
        out
    }

    fn refuses(&self, call: &Call, carried_out: &Answer, out: [i64; 3]) -> bool {
        let most = match self.fault {
            Fault::MostIs(most) => i64::from(most),
            _ => i64::from(TOTAL_LIMIT),
        };
        let is_above = |total: &i64| *total > most;
        let is_below = |total: &i64| *total < 0;
        let [before, after] = Worked::of(Fault::None, call, carried_out).totals();
        let record = call.totals.map(i64::from);
        let is_outside = match self.fault {
            Fault::SumsBeginAgain => out.iter().any(|total| is_above(&i64::from(*total as u32))),
            Fault::SumsAreSigned => out
                .iter()
                .any(|total| i64::from(*total as i32) > most || is_below(total)),
            Fault::BelowZeroIsTaken | Fault::BelowZeroIsZero => out.iter().any(is_above),
            Fault::AboveIsTaken | Fault::AboveIsCut => out.iter().any(is_below),
            _ => out.iter().any(|total| is_above(total) || is_below(total)),
        };
        match self.fault {
            Fault::NothingIsJudged => false,
            Fault::IsNotJudged(left_out) => {
                let judged = |total: &usize| *total != left_out;
                let totals = EACH_TOTAL.into_iter().filter(judged).map(|total| out[total]);
                totals
                    .into_iter()
                    .any(|total| is_above(&total) || is_below(&total))
            }
            Fault::ElementsAloneAreJudged => is_above(&out[NODES]) || is_below(&out[NODES]),
            Fault::ElementsAreHeldToTheMost => is_outside || out[NODES] > 4096,
            Fault::RecordBeforeIsJudged => is_outside || record.iter().any(is_above),
            Fault::WrongRecordIsRefused => is_outside || call.totals != totals::right(call),
            Fault::UnmovedIsNotJudged => is_outside && before != after,
            Fault::IsTakenAwayFirst => {
                is_outside || EACH_TOTAL.iter().any(|total| record[*total] < before[*total])
            }
            Fault::IsAddedFirst => {
                is_outside
                    || EACH_TOTAL
                        .iter()
                        .any(|total| record[*total] + after[*total] > most)
            }
            _ => is_outside,
        }
    }

    /// What a call leaves that is refused by 27.
    fn refused(&self, call: &Call, carried_out: Answer) -> Answer {
        let mut answer = Answer::unwritten(TOTALS_OUTSIDE.number, call);
        match self.fault {
            Fault::RefusedCallIsCarriedOut => {
                answer.after = carried_out.after;
                answer.after.totals = call.totals;
            }
            Fault::RefusedCallWritesMarks => answer.after.sets = carried_out.after.sets,
            Fault::RefusedCallWritesAnAnswer => answer.values = carried_out.values,
            Fault::RefusedCallMovesTheRecord => answer.after.totals = carried_out.after.totals,
            _ => {}
        }
        answer
    }

    fn accepted(&self, call: &Call, carried_out: Answer, out: [i64; 3]) -> Answer {
        let mut answer = carried_out;
        let most = i64::from(TOTAL_LIMIT);
        answer.after.totals = out.map(|total| match self.fault {
            Fault::BelowZeroIsZero => total.max(0) as u32,
            Fault::AboveIsCut => total.min(most) as u32,
            _ => total as u32,
        });
        let table = table(call);
        let used = answer.values[0] as usize;
        let [before, _] = Worked::of(Fault::None, call, &answer).totals();
        let ends = [[0; 3], totals::most(used, &table)];
        let is_near = ends.into_iter().any(|after: Totals| {
            let before = before.map(|total| total as u32);
            totals::is_outside(totals::moved(call.totals, before, after))
        });
        match self.fault {
            Fault::NearBoundsMoreIsWorkedOut if is_near => answer.values[1] += 1,
            Fault::NearBoundsTheRootIsLeft if is_near && call.node + 1 < call.count => {
                let width = table.width();
                let root = &call.sets[(call.count - 1) * width..][..width];
                answer.after.sets[(used - 1) * width..][..width].copy_from_slice(root);
            }
            _ => {}
        }
        answer
    }
}

fn table(call: &Call) -> Table {
    Table::read(&call.alphabet, &call.table).expect("a table")
}

/// The stored words of each used element before an exchange and after it, and which of them give way, come or are worked out
/// again, as a judge with a fault counts them.
struct Worked {
    fault: Fault,
    table: Table,
    old: Vec<Vec<u32>>,
    new: Vec<Vec<u32>>,
    /// How many elements give way and how many come; the last of them are these.
    size: usize,
    replaced: usize,
    node: usize,
    root: usize,
    /// Ancestors that are worked out, before the exchange.
    ancestors: Vec<usize>,
}

impl Worked {
    fn of(fault: Fault, call: &Call, carried_out: &Answer) -> Worked {
        let mut table = table(call);
        let (width, used) = (table.width(), carried_out.values[0] as usize);
        let children = postfix::tree_children(
            &words::symbols(&call.tree[..call.count]),
            &words::arities(&call.alphabet),
        );
        let mut stored = [
            call.sets[..call.count * width].to_vec(),
            carried_out.after.sets[..used * width].to_vec(),
        ];
        if fault == Fault::MarksAreTakenAsTrue {
            let trees = [&call.tree[..call.count], &carried_out.after.tree[..used]];
            stored = trees.map(|tree| state_sets(&call.alphabet, &table, tree));
        }
        if fault == Fault::HitsAreThoseOfTheFirstState {
            table.accepting = 0;
        }
        let [old, new] = stored.map(|sets| sets.chunks(width).map(<[u32]>::to_vec).collect());
        let mut ancestors = postfix::ancestors(&children, call.node);
        ancestors.truncate(carried_out.values[1] as usize - call.replacement.len());
        Worked {
            fault,
            table,
            old,
            new,
            size: call.count + call.replacement.len() - used,
            replaced: call.replacement.len(),
            node: call.node,
            root: call.node + used - call.count,
            ancestors,
        }
    }

    /// The totals of all used elements before and after.
    fn totals(&mut self) -> [[i64; 3]; 2] {
        let own = self.node + 1 - self.size..self.node + 1;
        let come = self.root + 1 - self.replaced..self.root + 1;
        let mut before = self.count(0, 0..self.old.len());
        let mut after = self.count(1, 0..self.new.len());
        let ancestors = self.ancestors.clone();
        let above = ancestors.iter().map(|place| place + self.root - self.node);
        match self.fault {
            Fault::HitsOfWhatGivesWayAreForgotten => before[MATCHES] -= self.count(0, own)[MATCHES],
            Fault::WhatGivesWayIsItsRootAlone => {
                let inner = self.count(0, own.start..own.end - 1);
                before = EACH_TOTAL.map(|total| before[total] - inner[total]);
            }
            Fault::ReplacementIsItsRootAlone => {
                let inner = self.count(1, come.start..come.end - 1);
                after = EACH_TOTAL.map(|total| after[total] - inner[total]);
            }
            Fault::ReplacementIsCountedTo(most) if come.len() > most => {
                after[CELLS] -= self.count(1, come.start + most..come.end)[CELLS];
            }
            Fault::OldCellsOfAncestorsAreForgotten => {
                before[CELLS] -= self.count(0, ancestors.iter().copied())[CELLS];
            }
            Fault::AncestorsAreForgotten => {
                let [old, new] = [self.count(0, ancestors.iter().copied()), self.count(1, above)];
                before = EACH_TOTAL.map(|total| before[total] - old[total]);
                after = EACH_TOTAL.map(|total| after[total] - new[total]);
            }
            Fault::LastAncestorIsForgotten => {
                let [old, new] = [
                    self.count(0, ancestors.last().copied()),
                    self.count(1, above.last()),
                ];
                before = EACH_TOTAL.map(|total| before[total] - old[total]);
                after = EACH_TOTAL.map(|total| after[total] - new[total]);
            }
            _ => {}
        }
        [before, after]
    }

    /// The totals of these elements before the exchange (0) or after it (1).
    fn count(&self, when: usize, places: impl IntoIterator<Item = usize>) -> [i64; 3] {
        let rows = [&self.old, &self.new][when];
        let mut sets: Vec<Vec<u32>> = places.into_iter().map(|place| rows[place].clone()).collect();
        let spare = 32 * self.table.width() - self.table.states;
        for row in &mut sets {
            match self.fault {
                Fault::SpareBitsAreNotCounted => {
                    let last = row.last_mut().expect("a word");
                    *last &= u32::MAX >> spare;
                }
                Fault::FirstWordsAreCounted => {
                    let is_match = self.table.is_match(row);
                    row[1..].fill(0);
                    // The hits are still those of the whole set.
                    let accepting = self.table.accepting;
                    if is_match && accepting >= 32 {
                        row[accepting / 32] = 1 << (accepting % 32);
                    }
                }
                _ => {}
            }
        }
        totals::counted(&self.table, &sets.concat()).map(i64::from)
    }
}
