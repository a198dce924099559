//! Rules with anything, a word that holds for every tree.

use peer::cases::examples::{self, C, F};
use peer::limits::CONSTANT_LIMIT;
use peer::words::{self, entry_word, Operator};

/// The closure over c of f(c, anything), over the source's alphabet.
pub fn closure() -> (Vec<u32>, Vec<u32>) {
    use Operator::{Anything, Closure, Symbol};
    let operators = [Symbol(C), Anything, Symbol(F), Closure(C)];
    (examples::alphabet(), words::operator_words(&operators))
}

/// A rule with as many states and table words as there may be: a symbol of arity 4 over 4 constants, in a union with four
/// times anything, under 51 closures, over 16 constants, 42 symbols of arity 4 and one of arity 2.
pub fn largest() -> (Vec<u32>, Vec<u32>) {
    let mut alphabet = vec![entry_word(0); CONSTANT_LIMIT];
    alphabet.extend([entry_word(4); 42]);
    alphabet.push(entry_word(2));
    let mut operators: Vec<Operator> = (0..4).map(Operator::Symbol).collect();
    operators.push(Operator::Symbol(CONSTANT_LIMIT));
    operators.extend([[Operator::Anything, Operator::Union]; 4].concat());
    operators.extend((0..51).map(|place| Operator::Closure((7 * place) % CONSTANT_LIMIT)));
    (alphabet, words::operator_words(&operators))
}
