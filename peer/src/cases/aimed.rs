//! Rules with `anything` (document 02, U7) whose tables have exactly as many words as are asked for.
//!
//! They have n times `anything` in unions and products, and above any of these words closures and symbols with one child.
//! So each word has entries, and into each entry leads exactly one table word (see `largest`). Over k constants and
//! symbols with children whose transitions take w words together, `anything` has w + k own words, a union two, a product
//! one, a closure three and the symbol two.

use crate::cases::patterns::Pattern;
use crate::chance::Random;
use crate::limits::{
    ARITY_LIMIT, COMPILED_LIMIT, CONSTANT_LIMIT, EXPRESSION_LIMIT, STATE_LIMIT, SYMBOL_LIMIT,
};
use crate::words::{self, entry_word, Operator};
use Operator::{Anything, Closure, Product, Symbol, Union};

/// So many different patterns whose tables have this many words.
pub fn patterns(words: usize, count: usize) -> Vec<Pattern> {
    (0..)
        .filter_map(|case| pattern(&mut Random::of_case("aimed tables", words as u64, case), words))
        .take(count)
        .collect()
}

/// How many words of each sort an expression has.
struct Counts {
    anything: usize,
    products: usize,
    closures: usize,
    symbols: usize,
}

/// A drawn pattern whose table has this many words; None where the alphabet that this takes is none.
fn pattern(random: &mut Random, words: usize) -> Option<Pattern> {
    let constants = random.between(1, CONSTANT_LIMIT);
    let anything = random.between(2, EXPRESSION_LIMIT / 2);
    let counts = Counts {
        anything,
        products: random.below(anything),
        closures: random.below(6),
        symbols: random.below(6),
    };
    let length = 2 * anything - 1 + counts.closures + counts.symbols;
    if length > EXPRESSION_LIMIT || length * (1 + constants) > STATE_LIMIT {
        return None;
    }
    // Head and length word, what leads into entries, and own words but for w in each `anything`.
    let own = anything * constants
        + 2 * (anything - 1 - counts.products)
        + counts.products
        + 3 * counts.closures
        + 2 * counts.symbols;
    let rest = words.checked_sub(2 + length * constants + own)?;
    if rest % anything != 0 {
        return None;
    }
    let alphabet = alphabet(random, constants, rest / anything)?;
    let expression = expression(random, &alphabet, &counts)?;
    Some(Pattern { alphabet, expression })
}

/// So many constants, and symbols with children whose transitions take so many words together, in any order.
fn alphabet(random: &mut Random, constants: usize, words: usize) -> Option<Vec<u32>> {
    let mut arities = vec![0; constants];
    let mut rest = words;
    while rest > 0 {
        let left = SYMBOL_LIMIT.checked_sub(arities.len() + 1)?;
        // What is left is neither one word nor too much for the symbols that are left.
        let fits = |arity: &usize| match rest.checked_sub(arity + 1) {
            Some(further) => further != 1 && further <= left * (ARITY_LIMIT + 1),
            None => false,
        };
        let fitting: Vec<usize> = (1..=ARITY_LIMIT).filter(fits).collect();
        if fitting.is_empty() {
            return None;
        }
        let arity = random.pick(&fitting);
        arities.push(arity);
        rest -= arity + 1;
    }
    random.shuffle(&mut arities);
    Some(arities.into_iter().map(entry_word).collect())
}

/// An expression with these counts in any order; None where it has symbols with one child and the alphabet has none.
fn expression(random: &mut Random, alphabet: &[u32], counts: &Counts) -> Option<Vec<u32>> {
    let constants = words::constants(alphabet);
    let unary = (0..alphabet.len()).find(|symbol| words::arity(alphabet, *symbol) == Some(1));
    let mut joining = vec![Union; counts.anything - 1];
    for word in joining.iter_mut().take(counts.products) {
        *word = Product(random.pick(&constants));
    }
    random.shuffle(&mut joining);
    // Of the roots so far the last two are joined, unless there is one, or another comes first.
    let mut expression = vec![Anything];
    let (mut roots, mut left) = (1, counts.anything - 1);
    while roots > 1 || left > 0 {
        if left > 0 && (roots == 1 || random.once_in(2)) {
            expression.push(Anything);
            (roots, left) = (roots + 1, left - 1);
        } else {
            expression.extend(joining.pop());
            roots -= 1;
        }
    }
    // Behind any word a word that takes one part may stand.
    for place in 0..counts.closures + counts.symbols {
        let word = if place < counts.closures {
            Closure(random.pick(&constants))
        } else {
            Symbol(unary?)
        };
        expression.insert(random.between(1, expression.len()), word);
    }
    Some(words::operator_words(&expression))
}

/// Patterns of exactly 1,024 states whose tables have this many words. Over 16 constants, a symbol over four constants and
/// 59 other words with entries have so many states: unions with `anything`, and closures. Each such union has w + 12 words
/// more than two closures, of which the largest table without `anything` is made.
pub fn with_most_states(words: usize) -> Vec<Pattern> {
    (1..=29)
        .filter_map(|unions| {
            let mut random = Random::of_case("aimed states", words as u64, unions as u64);
            let more = words.checked_sub(COMPILED_LIMIT)?;
            let own = (more / unions).checked_sub(12 + 5)?;
            if more % unions != 0 {
                return None;
            }
            let mut alphabet = alphabet(&mut random, CONSTANT_LIMIT, own)?;
            alphabet.push(entry_word(ARITY_LIMIT));
            let constants = words::constants(&alphabet);
            let mut expression: Vec<Operator> = constants[..4].iter().copied().map(Symbol).collect();
            expression.push(Symbol(alphabet.len() - 1));
            let mut above = vec![vec![Anything, Union]; unions];
            above.extend((2 * unions..59).map(|_| vec![Closure(random.pick(&constants))]));
            random.shuffle(&mut above);
            expression.extend(above.concat());
            let expression = words::operator_words(&expression);
            (alphabet.len() <= SYMBOL_LIMIT).then_some(Pattern { alphabet, expression })
        })
        .collect()
}
