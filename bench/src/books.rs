//! Books: a list of sections or of paragraphs, a section with a title and a list of paragraphs, a paragraph being a list
//! of runs, which are text, emphasised or not.

use peer::chance::Random;
use peer::words::{self, entry_word, Operator};

const TEXT: usize = 0;
const TITLE: usize = 1;
const END: usize = 2;
const LIST: usize = 3;
const SECTION: usize = 4;
const PARAGRAPH: usize = 5;
const EMPHASIS: usize = 6;

// Constants that stand in a rule alone.
const RUN: usize = 7;
const REST: usize = 8;

/// Paragraphs in which an emphasis is followed by text alone.
pub fn emphasis_before_text() -> (Vec<u32>, Vec<u32>) {
    let alphabet = [0, 0, 0, 2, 2, 1, 1].map(entry_word).to_vec();
    use Operator::{Closure, Product, Symbol};
    let operators = [
        Symbol(TEXT),
        Symbol(END),
        Symbol(LIST),
        Closure(END),
        Symbol(TEXT),
        Symbol(EMPHASIS),
        Symbol(TEXT),
        Symbol(END),
        Symbol(LIST),
        Closure(END),
        Symbol(LIST),
        Product(END),
        Symbol(PARAGRAPH),
    ];
    (alphabet, words::operator_words(&operators))
}

/// Paragraphs whose sixteenth run is an emphasis. A list's state set tells which of its first sixteen runs are one, so
/// that a chapter has many sets.
pub fn emphasis_at_sixteen() -> (Vec<u32>, Vec<u32>) {
    let alphabet = [0, 0, 0, 2, 2, 1, 1, 0, 0].map(entry_word).to_vec();
    use Operator::{Closure, Product, Symbol, Union};
    let mut operators = vec![Symbol(RUN); 15];
    operators.extend([Symbol(TEXT), Symbol(EMPHASIS), Symbol(REST)]);
    operators.extend([Symbol(LIST); 16]);
    operators.extend([
        Symbol(RUN),
        Symbol(END),
        Symbol(LIST),
        Closure(END),
        Product(REST),
    ]);
    operators.extend([Symbol(TEXT), Symbol(TEXT), Symbol(EMPHASIS), Union, Product(RUN)]);
    operators.push(Symbol(PARAGRAPH));
    (alphabet, words::operator_words(&operators))
}

/// Paragraphs that begin with an emphasis, whatever is in it and behind it.
pub fn emphasis_first() -> (Vec<u32>, Vec<u32>) {
    let alphabet = [0, 0, 0, 2, 2, 1, 1].map(entry_word).to_vec();
    use Operator::{Anything, Symbol};
    let operators = [
        Anything,
        Symbol(EMPHASIS),
        Anything,
        Symbol(LIST),
        Symbol(PARAGRAPH),
    ];
    (alphabet, words::operator_words(&operators))
}

/// Sections of three to six paragraphs, each one of two.
pub fn repetitive(_: &[u32], nodes: usize) -> Vec<usize> {
    let plain = [TEXT, TEXT, TEXT, END, LIST, LIST, LIST, PARAGRAPH];
    let emphatic = [TEXT, TEXT, EMPHASIS, TEXT, END, LIST, LIST, LIST, PARAGRAPH];
    book(nodes, |sections| {
        let mut section = vec![TITLE];
        let paragraphs = 3 + sections % 4;
        for paragraph in 0..paragraphs {
            section.extend_from_slice(if (paragraph + sections) % 3 == 0 {
                &emphatic
            } else {
                &plain
            });
        }
        section.push(END);
        section.extend(vec![LIST; paragraphs]);
        section.push(SECTION);
        section
    })
}

/// Paragraphs of 16 to 64 runs, each an emphasis or not at random.
pub fn random(_: &[u32], nodes: usize) -> Vec<usize> {
    let mut random = Random::new(6);
    book(nodes, |_| {
        let runs = random.between(16, 64);
        let mut paragraph = vec![];
        for _ in 0..runs {
            let run: &[usize] = if random.once_in(2) {
                &[TEXT, EMPHASIS]
            } else {
                &[TEXT]
            };
            paragraph.extend_from_slice(run);
        }
        paragraph.push(END);
        paragraph.extend(vec![LIST; runs]);
        paragraph.push(PARAGRAPH);
        paragraph
    })
}

/// A list of as many parts as there is room for; `part` is given how many stand before it.
fn book(nodes: usize, mut part: impl FnMut(usize) -> Vec<usize>) -> Vec<usize> {
    let mut book = vec![];
    let mut parts = 0;
    loop {
        let next = part(parts);
        // Beside the parts there is a list word for each, and the list's end.
        if book.len() + next.len() + 1 + parts + 1 > nodes {
            break;
        }
        book.extend(next);
        parts += 1;
    }
    book.push(END);
    book.extend(vec![LIST; parts]);
    book
}
