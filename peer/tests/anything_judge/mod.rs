//! A matcher that is wrong about `anything` in one respect.

use peer::automaton;
use peer::call::{Answer, Call, Matcher, Operation};
use peer::cases::anything_tables::TOO_LONG;
use peer::kinds::{kind, ANYTHING};
use peer::length_word::{say, table_in, with_length_word};
use peer::model::answer_with;
use peer::refusals::{self, Condition};
use peer::words::{self, Operator, TableWord};

#[derive(Clone, Copy, PartialEq, Debug)]
pub enum Fault {
    None,
    IsNoRuleWord,
    SpareBitsAreTaken,
    TakesAPart,
    IsTheEmptyRule,
    IsTheEmptyRuleInProducts,
    HasNoEntries,
    IsCountedAsOneState,
    EntriesAreNotReached,
    ConstantsLeadIntoEach,
    ConstantsAreLeftOut,
    LastConstantIsLeftOut,
    HolesAreLeftOut,
    ConstantsAlone,
    HighestRankAlone,
    FirstSymbolAlone,
    LastSymbolIsLeftOut,
    PartsAreAnEntry,
    LastPartIsAnEntry,
    MovesLeadIntoAnEntry,
    ConstantsHaveMovesToo,
    EntriesComeFirst,
    SymbolsFall,
    EntriesFall,
    LongTableIsTaken,
    LengthWordIsNotCounted,
    MostIs(usize),
    MostWithoutAnything,
    OneIsCounted,
    CountBeginsAgain,
    IsRefusedBy(u32),
    IsJudgedBefore(u32),
    IsJudgedAfter(u32),
    LongSliceIsEnough,
    RefusedCallWritesAHead,
    LongTablesAreRefused(usize),
    LongTablesAreCut(usize),
    LongTablesAreRefusedInExchange,
}

pub struct Judge(pub Fault);

impl Matcher for Judge {
    fn answer(&mut self, call: &Call) -> Answer {
        let mut taken = call.clone();
        for word in &mut taken.expression {
            self.take_word(call, word);
        }
        self.take_table(call.operation, &mut taken.table);
        let mut answer = answer_with(self.refusal(&taken), &taken);
        answer.after.expression.clone_from(&call.expression);
        if call.operation != Operation::Compile {
            answer.after.table.clone_from(&call.table);
        } else if answer.number == 0 {
            self.compile(&taken, &mut answer);
        } else if answer.number == TOO_LONG.number && self.0 == Fault::RefusedCallWritesAHead {
            answer
                .after
                .table
                .iter_mut()
                .take(1)
                .for_each(|word| *word = 0x8000_0400);
        }
        answer
    }
}

impl Judge {
    /// The rule word by which the model takes this one as the judge does.
    fn take_word(&self, call: &Call, word: &mut u32) {
        let is_anything = *word == Operator::Anything.word();
        match self.0 {
            Fault::IsNoRuleWord if is_anything => *word = 0,
            Fault::SpareBitsAreTaken if kind(*word) == ANYTHING => *word = Operator::Anything.word(),
            Fault::TakesAPart if is_anything => {
                let constants = words::named(&call.alphabet);
                *word = Operator::Closure(constants.first().copied().unwrap_or(0)).word();
            }
            _ => {}
        }
    }

    fn take_table(&self, operation: Operation, slice: &mut Vec<u32>) {
        let words = table_in(slice).map_or(0, <[u32]>::len);
        match self.0 {
            Fault::LongTablesAreRefused(most) if operation != Operation::Compile && words > most => {
                slice.clear()
            }
            Fault::LongTablesAreRefusedInExchange if operation == Operation::Exchange && words > 1148 => {
                slice.clear();
            }
            Fault::LongTablesAreCut(most) if operation != Operation::Compile && words > most => {
                say(slice, most)
            }
            _ => {}
        }
    }

    /// The first condition that holds, in the judge's order and by its reading of lengths.
    fn refusal(&self, call: &Call) -> Option<Condition> {
        if call.operation != Operation::Compile {
            return refusals::refusal(call);
        }
        let mut found = refusals::faults(call);
        let is_too_long = self.is_too_long(call);
        found.retain(|condition| *condition != TOO_LONG);
        if is_too_long {
            found.push(match self.0 {
                Fault::IsRefusedBy(number) => Condition::first(number),
                _ => TOO_LONG,
            });
        }
        let mut order = refusals::conditions(Operation::Compile);
        let beside = match self.0 {
            Fault::IsJudgedBefore(number) => Some((number, 0)),
            Fault::IsJudgedAfter(number) => Some((number, 1)),
            _ => None,
        };
        if let Some((number, places)) = beside {
            order.retain(|condition| *condition != TOO_LONG);
            let place = order.iter().position(|condition| condition.number == number);
            order.insert(place.expect("a condition") + places, TOO_LONG);
        }
        order.into_iter().find(|condition| found.contains(condition))
    }

    fn is_too_long(&self, call: &Call) -> bool {
        let Some(parts) = automaton::parts(&call.alphabet, &call.expression) else {
            return false;
        };
        let words = 1 + parts.concat().len();
        let of_anything = (0..call.expression.len())
            .filter(|place| call.expression[*place] == Operator::Anything.word())
            .map(|place| parts[1 + place].len());
        match self.0 {
            Fault::LongTableIsTaken => false,
            Fault::LengthWordIsNotCounted => words > 2049,
            Fault::MostIs(most) => words > most,
            Fault::MostWithoutAnything => words > 1148,
            Fault::OneIsCounted => words - of_anything.skip(1).sum::<usize>() > 2048,
            Fault::CountBeginsAgain => words % 4096 > 2048,
            Fault::LongSliceIsEnough => words > 2048 && words > call.table.len(),
            _ => words > 2048,
        }
    }

    /// Writes the table as the judge compiles it.
    fn compile(&self, call: &Call, answer: &mut Answer) {
        let table = self.table(&call.alphabet, &call.expression);
        if table.len() > call.table.len() {
            *answer = Answer::unwritten(7, call);
            return;
        }
        answer.after.table.clone_from(&call.table);
        answer.after.table[..table.len()].copy_from_slice(&table);
        answer.values[0] = table.len() as u32;
    }

    fn table(&self, alphabet: &[u32], expression: &[u32]) -> Vec<u32> {
        let anything = Operator::Anything.word();
        let has_product = expression
            .iter()
            .any(|word| matches!(Operator::read(*word), Some(Operator::Product(_))));
        let is_empty = match self.0 {
            Fault::IsTheEmptyRule | Fault::HasNoEntries => true,
            Fault::IsTheEmptyRuleInProducts => has_product,
            _ => false,
        };
        let mut numbered = expression.to_vec();
        if is_empty {
            for word in numbered.iter_mut().filter(|word| **word == anything) {
                *word = Operator::Empty.word();
            }
        }
        let mut parts = automaton::parts(alphabet, &numbered).expect("an expression");
        for place in (0..expression.len()).filter(|place| expression[*place] == anything) {
            let exit = automaton::states(alphabet, &numbered[..place]);
            parts[1 + place] = self.own(alphabet, exit, &parts[1 + place]);
            self.spoil_others(alphabet, exit, place, &mut parts);
        }
        with_length_word(&parts.concat())
    }

    /// What the other words have to do with the `anything` at this place.
    fn spoil_others(&self, alphabet: &[u32], exit: usize, place: usize, parts: &mut [Vec<TableWord>]) {
        let constants = words::constants(alphabet);
        let entries = exit + 1..exit + 1 + constants.len();
        match self.0 {
            Fault::IsCountedAsOneState => {
                if let TableWord::Head { states, .. } = &mut parts[0][0] {
                    *states -= constants.len();
                }
            }
            Fault::EntriesAreNotReached => {
                for part in parts {
                    part.retain(|word| match word {
                        TableWord::Epsilon { to, .. } => !entries.contains(to),
                        TableWord::Transition { target, .. } => !entries.contains(target),
                        _ => true,
                    });
                }
            }
            Fault::ConstantsLeadIntoEach if place + 2 < parts.len() => {
                for (symbol, target) in constants.into_iter().zip(entries) {
                    parts[0].push(TableWord::Transition { symbol, target });
                }
            }
            _ => {}
        }
    }

    /// The transitions of one `anything`, which are these without a fault.
    fn own(&self, alphabet: &[u32], exit: usize, own: &[TableWord]) -> Vec<TableWord> {
        let arity = |symbol: usize| words::arity(alphabet, symbol).unwrap_or(0);
        let constants = words::constants(alphabet);
        let with_parts: Vec<usize> = (0..alphabet.len()).filter(|symbol| arity(*symbol) > 0).collect();
        let on = |symbol: usize| {
            let transition = TableWord::Transition { symbol, target: exit };
            [vec![transition], vec![TableWord::Child(exit); arity(symbol)]].concat()
        };
        let on_all = |symbols: &[usize]| symbols.iter().flat_map(|symbol| on(*symbol)).collect::<Vec<_>>();
        let is_epsilon = |word: &TableWord| matches!(word, TableWord::Epsilon { .. });
        let (epsilons, transitions): (Vec<TableWord>, Vec<TableWord>) =
            own.iter().partition(|word| is_epsilon(word));
        let changed = |change: &dyn Fn(usize, TableWord) -> TableWord| {
            let words = own.iter().enumerate();
            words
                .map(|(place, word)| change(place, *word))
                .collect::<Vec<_>>()
        };
        match self.0 {
            Fault::HasNoEntries => on_all(&(0..alphabet.len()).collect::<Vec<_>>()),
            Fault::ConstantsAreLeftOut => transitions,
            Fault::LastConstantIsLeftOut => own[..own.len() - 1].to_vec(),
            Fault::ConstantsAlone => epsilons,
            Fault::HolesAreLeftOut => {
                let is_left = |word: &TableWord| match word {
                    TableWord::Epsilon { from, .. } => !words::is_hole(alphabet, constants[from - exit - 1]),
                    _ => true,
                };
                own.iter().copied().filter(is_left).collect()
            }
            Fault::HighestRankAlone => {
                let highest = with_parts.iter().map(|symbol| arity(*symbol)).max().unwrap_or(0);
                let of_highest = with_parts
                    .iter()
                    .copied()
                    .filter(|symbol| arity(*symbol) == highest);
                [on_all(&of_highest.collect::<Vec<_>>()), epsilons].concat()
            }
            Fault::FirstSymbolAlone => [on_all(&with_parts[..with_parts.len().min(1)]), epsilons].concat(),
            Fault::LastSymbolIsLeftOut => [
                on_all(&with_parts[..with_parts.len().saturating_sub(1)]),
                epsilons,
            ]
            .concat(),
            Fault::PartsAreAnEntry => changed(&|_, word| match word {
                TableWord::Child(_) => TableWord::Child(exit + 1),
                _ => word,
            }),
            Fault::LastPartIsAnEntry => changed(&|place, word| match (word, own.get(place + 1)) {
                (TableWord::Child(_), Some(TableWord::Child(_))) => word,
                (TableWord::Child(_), _) => TableWord::Child(exit + 1),
                _ => word,
            }),
            Fault::MovesLeadIntoAnEntry => changed(&|_, word| match word {
                TableWord::Transition { symbol, .. } => TableWord::Transition {
                    symbol,
                    target: exit + 1,
                },
                _ => word,
            }),
            Fault::ConstantsHaveMovesToo => {
                let all: Vec<usize> = (0..alphabet.len()).collect();
                [on_all(&all), epsilons].concat()
            }
            Fault::EntriesComeFirst => [epsilons, transitions].concat(),
            Fault::SymbolsFall => {
                let falling: Vec<usize> = with_parts.iter().rev().copied().collect();
                [on_all(&falling), epsilons].concat()
            }
            Fault::EntriesFall => {
                let falling = epsilons.into_iter().rev().collect();
                [transitions, falling].concat()
            }
            _ => own.to_vec(),
        }
    }
}
