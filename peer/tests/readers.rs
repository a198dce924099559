//! Matchers that are wrong about a table's length in one respect (document 02, U1): the comparison finds each of them.

mod wrong;

use peer::automaton;
use peer::call::{Answer, Call, Matcher, Operation};
use peer::cases::{behind, length_words, packed};
use peer::compare::Comparison;
use peer::kinds::{self, kind, CHILD, LENGTH, TRANSITION};
use peer::length_word::table_in;
use peer::limits::TABLE_LIMIT;
use peer::mapping::{comes_to_its_end, Mapped};
use peer::model::Model;
use peer::words::TableWord;

#[derive(Clone, Copy, PartialEq, Debug)]
enum Fault {
    None,
    SliceIsTheTable,
    LongSliceIsRefused,
    CountOverTheMostIsTaken,
    CountOverTheSliceIsTaken,
    CountUnderTheLeastIsTaken,
    SpareBitsAreTaken,
    AnyKindIsTaken,
    OldTableIsTaken,
    SecondLengthIsTaken,
    PartsFollowTheTable,
    LengthIsOneWordLess,
    LengthIsTheSlices,
    SlicesMayBeOneWordLess,
    WordBehindTheTableIsRead,
    WordBehindATransitionIsRead,
    WordBehindAChildIsRead,
    SecondWordIsReadUnasked,
}

struct Reader(Fault);

impl Matcher for Reader {
    fn answer(&mut self, call: &Call) -> Answer {
        if call.operation == Operation::Compile {
            let mut answer = Model.answer(call);
            self.spoil_compile(call, &mut answer);
            return answer;
        }
        let Some(table) = self.taken_instead(&call.table) else {
            return Model.answer(call);
        };
        let mut taken = call.clone();
        taken.table = table;
        let mut answer = Model.answer(&taken);
        answer.after.table.clone_from(&call.table);
        answer
    }

    fn answer_said(&mut self, call: &Call, said: usize) -> Answer {
        let mut answer = self.answer(call);
        let end = call.table.len();
        let ends_with = |wanted| call.table.last().is_some_and(|word| kind(*word) == wanted);
        let is_accepted = answer.number == 0;
        let read = match self.0 {
            Fault::WordBehindTheTableIsRead if said > end => end,
            Fault::WordBehindATransitionIsRead if is_accepted && ends_with(TRANSITION) => end,
            Fault::WordBehindAChildIsRead if is_accepted && ends_with(CHILD) => end,
            Fault::SecondWordIsReadUnasked => 1,
            _ => return answer,
        };
        let words = Mapped::holding(&call.table);
        answer.ended = comes_to_its_end(|| unsafe {
            words.pointer().wrapping_add(read).read_volatile();
        });
        answer
    }
}

/// The length word for so many words.
fn length(count: usize) -> u32 {
    TableWord::Length(count).word()
}

impl Reader {
    /// The slice that the model has to be lent so that it takes this one as the reader does; None where they agree.
    fn taken_instead(&self, slice: &[u32]) -> Option<Vec<u32>> {
        let has = slice.len();
        let word = *slice.get(1)?;
        let count = kinds::length(word);
        let is_length = kind(word) == LENGTH;
        let is_table = table_in(slice).is_some();
        let with = |word: u32| Some([&slice[..1], &[word], &slice[2..]].concat());
        match self.0 {
            Fault::SliceIsTheTable if is_table && count < has => Some(Vec::new()),
            Fault::LongSliceIsRefused if has > TABLE_LIMIT => Some(Vec::new()),
            Fault::CountOverTheMostIsTaken if is_length && count > TABLE_LIMIT => with(length(TABLE_LIMIT)),
            Fault::CountOverTheSliceIsTaken if is_length && count > has => with(length(has)),
            Fault::CountUnderTheLeastIsTaken if is_length && count < 2 => with(length(2)),
            Fault::SpareBitsAreTaken if is_length => with(length(count)),
            Fault::AnyKindIsTaken => with(word << 4 >> 4 | kinds::word(LENGTH)),
            Fault::OldTableIsTaken if !is_length && has < TABLE_LIMIT => {
                Some([&slice[..1], &[length(has + 1)], &slice[1..]].concat())
            }
            Fault::SecondLengthIsTaken if is_table => {
                let is_move = |word: &u32| kind(*word) != LENGTH;
                let moves: Vec<u32> = slice[2..count].iter().copied().filter(is_move).collect();
                Some([&[slice[0], length(2 + moves.len())], &moves[..]].concat())
            }
            Fault::PartsFollowTheTable if is_table => {
                let is_part = |word: &&u32| kind(**word) == CHILD;
                let parts = slice[count..].iter().take_while(is_part).count();
                with(length(count + parts))
            }
            _ => None,
        }
    }

    fn spoil_compile(&self, call: &Call, answer: &mut Answer) {
        let lent = call.table.len();
        match self.0 {
            Fault::LengthIsOneWordLess if answer.number == 0 => {
                answer.after.table[1] = length(answer.values[0] as usize - 1);
            }
            Fault::LengthIsTheSlices if answer.number == 0 => answer.after.table[1] = length(lent),
            Fault::SlicesMayBeOneWordLess if answer.number == 7 => {
                let table = automaton::table(&call.alphabet, &call.expression).expect("an expression");
                if lent + 1 == table.len() {
                    answer.number = 0;
                }
            }
            _ => {}
        }
    }
}

fn assert_found(cases: fn(&mut Comparison), faults: &[Fault]) {
    wrong::assert_found(|fault| Box::new(Reader(fault)), Fault::None, cases, faults);
}

#[test]
fn a_wrong_reader_of_lengths_is_not_found() {
    assert_found(
        length_words::compare,
        &[
            Fault::CountOverTheMostIsTaken,
            Fault::CountOverTheSliceIsTaken,
            Fault::CountUnderTheLeastIsTaken,
            Fault::SpareBitsAreTaken,
            Fault::AnyKindIsTaken,
            Fault::OldTableIsTaken,
            Fault::SecondLengthIsTaken,
            Fault::PartsFollowTheTable,
        ],
    );
}

#[test]
fn a_wrong_reader_of_slices_is_not_found() {
    assert_found(
        packed::compare,
        &[
            Fault::SliceIsTheTable,
            Fault::LongSliceIsRefused,
            Fault::LengthIsOneWordLess,
            Fault::LengthIsTheSlices,
            Fault::SlicesMayBeOneWordLess,
        ],
    );
}

#[test]
fn a_read_behind_a_table_is_not_found() {
    assert_found(
        behind::compare,
        &[
            Fault::WordBehindTheTableIsRead,
            Fault::WordBehindATransitionIsRead,
            Fault::WordBehindAChildIsRead,
            Fault::SecondWordIsReadUnasked,
        ],
    );
}
