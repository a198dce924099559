//! Matchers that are wrong about heights in one respect (document 02, U6): the comparison finds each of them.

mod wrong;

use peer::call::{Answer, Call, Matcher, Operation};
use peer::cases::heights::{RESULT_TOO_HIGH, TOO_HIGH};
use peer::cases::{faults, heights, high_chapters, high_histories, raised};
use peer::compare::Comparison;
use peer::exchange::splice;
use peer::model::answer_with;
use peer::postfix;
use peer::refusals::{self, Condition};
use peer::words;

#[derive(Clone, Copy, PartialEq, Debug)]
enum Fault {
    None,
    LoneElementHasHeight0,
    GreatestIs511,
    GreatestIs513,
    FirstChildIsTheHighest,
    LastChildIsTheHighest,
    ElementsAreCounted,
    RunTakesAnyHeight,
    UsedChapterMayBeAnyHeight,
    ResultMayBeAnyHeight,
    SubtreeIsJudgedForTheChapter,
    WholeSliceIsJudged,
    ReplacementIsJudgedForTheResult,
    HighReplacementIsRefusedBy15,
    ResultIsAsMuchHigherAsTheReplacement,
    FirstExchangeAloneIsJudged,
    RefusedCallIsCarriedOut,
    ChapterIsJudgedBefore(Operation, u32),
    ChapterIsJudgedAfter(Operation, u32),
    ResultIsJudgedBefore(u32),
}

struct Judge {
    fault: Fault,
    exchanges: usize,
}

impl Matcher for Judge {
    fn answer(&mut self, call: &Call) -> Answer {
        let is_exchange = call.operation == Operation::Exchange;
        self.exchanges += usize::from(is_exchange);
        let refusal = match call.operation {
            Operation::Run | Operation::Exchange => self.refusal(call),
            Operation::Compile | Operation::List => refusals::refusal(call),
        };
        let mut answer = answer_with(refusal, call);
        let is_carried_out = self.fault == Fault::RefusedCallIsCarriedOut && is_exchange;
        if is_carried_out && refusal == Some(RESULT_TOO_HIGH) {
            answer = Answer {
                number: answer.number,
                values: answer.values,
                ..answer_with(None, call)
            };
        }
        answer
    }
}

impl Judge {
    /// The first condition that holds, in the judge's order and by its reading of heights.
    fn refusal(&self, call: &Call) -> Option<Condition> {
        let mut order = refusals::conditions(call.operation);
        self.reorder(call.operation, &mut order);
        let mut found = refusals::faults(call);
        found.retain(|condition| condition.number != TOO_HIGH.number);
        if self.is_chapter_too_high(call) {
            found.push(TOO_HIGH);
        }
        if self.is_result_too_high(call) {
            found.push(RESULT_TOO_HIGH);
        }
        let is_high_replacement = self.is_too_high(&arities(&call.alphabet, &call.replacement));
        if self.fault == Fault::HighReplacementIsRefusedBy15 && is_high_replacement {
            found.push(Condition::first(15));
        }
        order.into_iter().find(|condition| found.contains(condition))
    }

    fn reorder(&self, operation: Operation, order: &mut Vec<Condition>) {
        let (moved, number, places) = match self.fault {
            Fault::ChapterIsJudgedBefore(of, number) if of == operation => (TOO_HIGH, number, 0),
            Fault::ChapterIsJudgedAfter(of, number) if of == operation => (TOO_HIGH, number, 1),
            Fault::ResultIsJudgedBefore(number) if operation == Operation::Exchange => {
                (RESULT_TOO_HIGH, number, 0)
            }
            _ => return,
        };
        order.retain(|condition| *condition != moved);
        let beside = Condition::first(number);
        let place = order.iter().position(|condition| *condition == beside);
        order.insert(place.expect("a condition") + places, moved);
    }

    fn is_chapter_too_high(&self, call: &Call) -> bool {
        let is_run = call.operation == Operation::Run;
        let used = match self.fault {
            Fault::RunTakesAnyHeight if is_run => return false,
            _ if is_run => call.tree.len(),
            Fault::UsedChapterMayBeAnyHeight => return false,
            Fault::FirstExchangeAloneIsJudged if self.exchanges > 1 => return false,
            Fault::WholeSliceIsJudged => call.tree.len(),
            _ => call.count.min(call.tree.len()),
        };
        let own = arities(&call.alphabet, &call.tree[..used]);
        if self.fault == Fault::ChapterIsJudgedBefore(call.operation, 11) {
            return highest_tree(&own) > self.greatest();
        }
        if self.fault == Fault::SubtreeIsJudgedForTheChapter && !is_run && call.node < used {
            return postfix::children(&own)
                .is_some_and(|all| self.heights(&all)[call.node] > self.greatest());
        }
        self.is_too_high(&own)
    }

    fn is_result_too_high(&self, call: &Call) -> bool {
        let own = arities(&call.alphabet, &call.tree[..call.count.min(call.tree.len())]);
        let replacement = arities(&call.alphabet, &call.replacement);
        match self.fault {
            Fault::ResultMayBeAnyHeight => return false,
            Fault::FirstExchangeAloneIsJudged if self.exchanges > 1 => return false,
            Fault::ReplacementIsJudgedForTheResult => return self.is_too_high(&replacement),
            _ => {}
        }
        let Some(children) = postfix::children(&own).filter(|_| call.node < own.len()) else {
            return self.is_too_high(&replacement);
        };
        if self.fault == Fault::ResultIsAsMuchHigherAsTheReplacement {
            let heights = self.heights(&children);
            let added = self.height(&replacement).unwrap_or(0);
            return heights[own.len() - 1] + added > self.greatest() + heights[call.node];
        }
        let size = postfix::sizes(&children)[call.node];
        self.is_too_high(&splice(&own, call.node, size, &replacement))
    }

    fn greatest(&self) -> usize {
        match self.fault {
            Fault::GreatestIs511 => 511,
            Fault::GreatestIs513 => 513,
            _ => 512,
        }
    }

    fn is_too_high(&self, arities: &[usize]) -> bool {
        self.height(arities) > Some(self.greatest())
    }

    fn height(&self, arities: &[usize]) -> Option<usize> {
        self.heights(&postfix::children(arities)?).pop()
    }

    fn heights(&self, children: &[Vec<usize>]) -> Vec<usize> {
        let mut heights: Vec<usize> = Vec::new();
        for own in children {
            let mut below = own.iter().map(|child| heights[*child]);
            let below = match self.fault {
                Fault::FirstChildIsTheHighest => below.next(),
                Fault::LastChildIsTheHighest => below.next_back(),
                Fault::ElementsAreCounted => Some(below.sum()),
                _ => below.max(),
            };
            let is_counted = self.fault != Fault::LoneElementHasHeight0 || !own.is_empty();
            heights.push(below.unwrap_or(0) + usize::from(is_counted));
        }
        heights
    }
}

/// A word that is no element counts as a leaf.
fn arities(alphabet: &[u32], tree: &[u32]) -> Vec<usize> {
    tree.iter()
        .map(|word| words::read_node(*word).and_then(|symbol| words::arity(alphabet, symbol)))
        .map(|arity| arity.unwrap_or(0))
        .collect()
}

/// The height of the highest tree among words that need not be one tree; what lacks children has those that are there.
fn highest_tree(arities: &[usize]) -> usize {
    let mut roots: Vec<usize> = Vec::new();
    let mut highest = 0;
    for arity in arities {
        let below = roots.split_off(roots.len().saturating_sub(*arity));
        let own = 1 + below.into_iter().max().unwrap_or(0);
        highest = highest.max(own);
        roots.push(own);
    }
    highest
}

fn assert_found(cases: fn(&mut Comparison), faults: &[Fault]) {
    wrong::assert_found(
        |fault| Box::new(Judge { fault, exchanges: 0 }),
        Fault::None,
        cases,
        faults,
    );
}

#[test]
fn a_wrong_judge_of_chapters_is_not_found() {
    assert_found(
        heights::compare,
        &[
            Fault::LoneElementHasHeight0,
            Fault::GreatestIs511,
            Fault::GreatestIs513,
            Fault::FirstChildIsTheHighest,
            Fault::LastChildIsTheHighest,
            Fault::ElementsAreCounted,
            Fault::RunTakesAnyHeight,
            Fault::UsedChapterMayBeAnyHeight,
            Fault::WholeSliceIsJudged,
            Fault::ChapterIsJudgedBefore(Operation::Run, 11),
            Fault::ChapterIsJudgedBefore(Operation::Exchange, 11),
        ],
    );
}

#[test]
fn a_wrong_judge_of_results_is_not_found() {
    assert_found(
        raised::compare,
        &[
            Fault::LoneElementHasHeight0,
            Fault::GreatestIs511,
            Fault::GreatestIs513,
            Fault::LastChildIsTheHighest,
            Fault::ResultMayBeAnyHeight,
            Fault::SubtreeIsJudgedForTheChapter,
            Fault::ReplacementIsJudgedForTheResult,
            Fault::HighReplacementIsRefusedBy15,
            Fault::ResultIsAsMuchHigherAsTheReplacement,
            Fault::RefusedCallIsCarriedOut,
        ],
    );
}

#[test]
fn a_judge_of_run_in_another_order_is_not_found() {
    let early = [8, 9, 10].map(|number| Fault::ChapterIsJudgedBefore(Operation::Run, number));
    let late = [Fault::ChapterIsJudgedAfter(Operation::Run, 12)];
    assert_found(
        |comparison| faults::compare_operation(comparison, Operation::Run),
        &[&early[..], &late].concat(),
    );
}

#[test]
fn a_judge_of_exchange_in_another_order_is_not_found() {
    let early = [9, 10].map(|number| Fault::ChapterIsJudgedBefore(Operation::Exchange, number));
    let late = [12, 16].map(|number| Fault::ChapterIsJudgedAfter(Operation::Exchange, number));
    let result = [12, 14, 15, 16].map(Fault::ResultIsJudgedBefore);
    assert_found(
        |comparison| faults::compare_operation(comparison, Operation::Exchange),
        &[&early[..], &late, &result].concat(),
    );
}

#[test]
fn a_wrong_judge_of_random_chapters_is_not_found() {
    assert_found(
        |comparison| high_chapters::compare(comparison, 5, 8),
        &[
            Fault::GreatestIs513,
            Fault::LastChildIsTheHighest,
            Fault::RunTakesAnyHeight,
            Fault::UsedChapterMayBeAnyHeight,
            Fault::ResultMayBeAnyHeight,
            Fault::ReplacementIsJudgedForTheResult,
        ],
    );
}

#[test]
fn a_wrong_judge_of_lists_is_not_found() {
    assert_found(
        |comparison| high_histories::compare(comparison, 5, 3),
        &[
            Fault::GreatestIs511,
            Fault::GreatestIs513,
            Fault::ResultMayBeAnyHeight,
            Fault::ReplacementIsJudgedForTheResult,
            Fault::ResultIsAsMuchHigherAsTheReplacement,
            Fault::FirstExchangeAloneIsJudged,
            Fault::RefusedCallIsCarriedOut,
        ],
    );
}
