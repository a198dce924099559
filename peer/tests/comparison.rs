//! The comparison itself: it finds nothing where the model is compared with itself, and it finds each matcher that is
//! wrong in one respect.

use peer::automaton;
use peer::call::{Answer, Call, Matcher, Operation};
use peer::cases::patterns::pattern;
use peer::cases::{damage, examples, faults, histories, hole_members, largest, lengths, limits, random};
use peer::chance::Random;
use peer::compare::Comparison;
use peer::exchange::splice;
use peer::generate;
use peer::guard::Guarded;
use peer::marks::Table;
use peer::model::{state_sets, Model};
use peer::words::Operator;

/// One respect in which a matcher can be wrong.
#[derive(Clone, Copy, PartialEq, Debug)]
enum Fault {
    None,
    RunLeavesMarksAlone,
    ListNamesNone,
    OneTableForAllRules,
    ExchangeMarksAfresh,
    ExchangeWorksOnce,
    ExchangeStopsAtTheSameHit,
    ExchangeIgnoresSpareBits,
    ExchangeLeavesOldWords,
    ResultJudgedWithoutTheSubtree,
    RefusedCallWritesAnAnswer,
    RunWritesOneWordMore,
    TreeJudgedBeforeItsWords,
    WordOutsideASliceChanges,
}

struct Wrong {
    fault: Fault,
    exchanges: usize,
}

impl Matcher for Wrong {
    fn answer(&mut self, call: &Call) -> Answer {
        let mut answer = Model.answer(call);
        match call.operation {
            _ if answer.number != 0 => self.spoil_refusal(call, &mut answer),
            Operation::Compile => self.spoil_compile(call, &mut answer),
            Operation::Run => self.spoil_run(call, &mut answer),
            Operation::List => self.spoil_list(call, &mut answer),
            Operation::Exchange => self.spoil_exchange(call, &mut answer),
        }
        answer
    }
}

impl Wrong {
    fn spoil_refusal(&self, call: &Call, answer: &mut Answer) {
        match self.fault {
            Fault::RefusedCallWritesAnAnswer if call.operation == Operation::Compile => answer.values[0] = 0,
            Fault::TreeJudgedBeforeItsWords if answer.number == 10 => answer.number = 11,
            _ => {}
        }
    }

    fn spoil_compile(&self, call: &Call, answer: &mut Answer) {
        if self.fault == Fault::OneTableForAllRules {
            let one = automaton::table(&call.alphabet, &[Operator::Empty.word()]).expect("an expression");
            answer.after.table[..one.len()].copy_from_slice(&one);
            answer.values[0] = one.len() as u32;
        }
    }

    fn spoil_run(&self, call: &Call, answer: &mut Answer) {
        let sets = &mut answer.after.sets;
        match self.fault {
            Fault::RunLeavesMarksAlone => sets.clone_from(&call.sets),
            Fault::RunWritesOneWordMore => {
                if let Some(word) = sets.get_mut(call.tree.len() * table(call).width()) {
                    *word = 0;
                }
            }
            Fault::WordOutsideASliceChanges => answer.surroundings_kept = false,
            _ => {}
        }
    }

    fn spoil_list(&self, call: &Call, answer: &mut Answer) {
        if self.fault == Fault::ListNamesNone {
            answer.after.list.clone_from(&call.list);
            answer.values[0] = 0;
        }
    }

    fn spoil_exchange(&mut self, call: &Call, answer: &mut Answer) {
        self.exchanges += 1;
        let table = table(call);
        let width = table.width();
        let afresh = |tree: &[u32]| state_sets(&call.alphabet, &table, tree);
        let used = answer.values[0] as usize;
        let replaced = call.replacement.len();
        let Call { tree, sets, .. } = &mut answer.after;
        match self.fault {
            Fault::ExchangeMarksAfresh => {
                let fresh = afresh(&tree[..used]);
                sets[..fresh.len()].copy_from_slice(&fresh);
            }
            Fault::ExchangeWorksOnce if self.exchanges > 1 => {
                let size = replaced + call.count - used;
                let rows: Vec<&[u32]> = call.sets.chunks(width).take(call.count).collect();
                let fresh = afresh(&call.replacement);
                let mine: Vec<&[u32]> = fresh.chunks(width).collect();
                let moved = splice(&rows, call.node, size, &mine).concat();
                sets[..moved.len()].copy_from_slice(&moved);
            }
            Fault::ExchangeStopsAtTheSameHit if answer.values[1] as usize > replaced => {
                let is_hit = |sets: &[u32], node: usize| table.is_match(&sets[node * width..][..width]);
                if is_hit(&call.sets, call.node) == is_hit(sets, call.node + used - call.count) {
                    answer.values[1] = replaced as u32;
                }
            }
            Fault::ExchangeIgnoresSpareBits => {
                let mut masked = call.clone();
                let spare = 32 * width - table.states;
                for word in masked.sets.chunks_mut(width).filter_map(<[u32]>::last_mut) {
                    *word = *word << spare >> spare;
                }
                *answer = Model.answer(&masked);
            }
            Fault::ExchangeLeavesOldWords if used < call.count => {
                tree[used..call.count].copy_from_slice(&call.tree[used..call.count]);
            }
            Fault::ResultJudgedWithoutTheSubtree if call.count + replaced > call.tree.len() => {
                *answer = Answer::unwritten(16, call);
            }
            _ => {}
        }
    }
}

fn table(call: &Call) -> Table {
    Table::read(&call.alphabet, &call.table).expect("a table")
}

/// How many differences the whole comparison finds in a matcher with this fault.
fn differences(fault: Fault) -> u64 {
    let mut comparison = Comparison::quietly_with(Box::new(Wrong { fault, exchanges: 0 }));
    examples::compare(&mut comparison);
    faults::compare(&mut comparison);
    damage::compare(&mut comparison, 5, 30);
    random::compare(&mut comparison, 5, 60);
    histories::compare(&mut comparison, 5, 40);
    comparison.differences()
}

#[test]
fn the_model_differs_from_itself() {
    assert_eq!(differences(Fault::None), 0);
    let mut comparison = Comparison::with(Box::new(Model));
    limits::compare(&mut comparison);
    lengths::compare(&mut comparison);
    largest::compare(&mut comparison, 5, 20);
    hole_members::compare(&mut comparison, 5, 20);
    assert_eq!(comparison.differences(), 0);
}

#[test]
fn a_wrong_matcher_is_not_found() {
    for fault in [
        Fault::RunLeavesMarksAlone,
        Fault::ListNamesNone,
        Fault::OneTableForAllRules,
        Fault::ExchangeMarksAfresh,
        Fault::ExchangeWorksOnce,
        Fault::ExchangeStopsAtTheSameHit,
        Fault::ExchangeIgnoresSpareBits,
        Fault::ExchangeLeavesOldWords,
        Fault::ResultJudgedWithoutTheSubtree,
        Fault::RefusedCallWritesAnAnswer,
        Fault::RunWritesOneWordMore,
        Fault::TreeJudgedBeforeItsWords,
        Fault::WordOutsideASliceChanges,
    ] {
        assert!(differences(fault) > 0, "{fault:?} is not found");
    }
}

#[cfg(not(linked))]
#[test]
fn a_comparison_without_a_library_ends_well() {
    let output = std::process::Command::new(env!("CARGO_BIN_EXE_peer"))
        .output()
        .expect("a run");
    assert_eq!((output.status.code(), output.stdout), (Some(2), Vec::new()));
}

#[test]
fn a_check_of_the_model_is_counted_as_a_call() {
    let mut comparison = Comparison::quietly_with(Box::new(Wrong {
        fault: Fault::ListNamesNone,
        exchanges: 0,
    }));
    random::compare(&mut comparison, 5, 60);
    let calls: u64 = comparison
        .numbers
        .values()
        .flat_map(|numbers| numbers.values())
        .sum();
    assert_eq!(comparison.calls.cases, calls);
    assert!(comparison.calls.differences > 0 && comparison.checks.cases > 0);
    assert_eq!((comparison.checks.differences, comparison.runs.cases), (0, 0));
}

#[test]
fn a_write_outside_a_slice_is_not_seen() {
    let words = [1, 2, 3];
    let mut inside = Guarded::around(&words);
    inside.slice().fill(9);
    assert!(inside.surroundings_kept() && inside.content() == [9, 9, 9]);
    for place in (0..8).chain(11..19) {
        let mut outside = Guarded::around(&words);
        outside.words[place] ^= 1;
        assert!(!outside.surroundings_kept() && outside.content() == words);
    }
}

#[test]
fn a_seed_gives_other_inputs_each_time() {
    let draw = || {
        let mut random = Random::of_case("test", 9, 4);
        let own = pattern(&mut random);
        let tree = generate::tree(&mut random, &own.alphabet, 30);
        (own.alphabet, own.expression, tree)
    };
    assert_eq!(draw(), draw());
}
