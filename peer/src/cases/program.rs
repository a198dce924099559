//! The program `marklist`: what it prints for an input of bytes, compared with what document 01 says, and that it ends
//! well. The program's path is in HAQBYLUR_MARKLIST.

use crate::cases::patterns::{Pattern, Patterns};
use crate::cases::{anything_inputs, examples, hole_inputs, limits};
use crate::chance::Random;
use crate::compare::Comparison;
use crate::draw;
use crate::driver::{Outcome, Program};
use crate::generate::{self, holes};
use crate::language::Expression;
use crate::limits::{
    CONSTANT_LIMIT, EXPRESSION_LIMIT, HEIGHT_LIMIT, NODE_LIMIT, PROGRAM_LIMIT, SYMBOL_LIMIT,
};
use crate::marklist::{encode, expected};
use crate::postfix;
use crate::words::{self, entry_word, node_word, Operator};
use std::time::Duration;

pub fn path() -> Option<String> {
    std::env::var("HAQBYLUR_MARKLIST").ok()
}

pub fn compare(comparison: &mut Comparison, path: &str, seed: u64, cases: u64) {
    let patience = Duration::from_secs(20);
    let program = &mut Compared::new(Program { path, patience });
    source(comparison, program);
    early_ends(comparison, program);
    lengths(comparison, program);
    heights(comparison, program);
    hole_inputs::compare(comparison, program);
    anything_inputs::compare(comparison, program);
    for (subject, patterns) in [
        ("inputs of marklist", Patterns::over(generate::alphabet)),
        ("inputs with holes", Patterns::over(holes::alphabet)),
        (
            "inputs with anything",
            Patterns::with_anything_over(generate::alphabet),
        ),
        (
            "inputs with anything and holes",
            Patterns::with_anything_over(holes::alphabet),
        ),
    ] {
        comparison.random_cases(subject, seed, cases, |comparison, _, random| {
            random_input(comparison, program, random, patterns);
        });
    }
}

/// The compared program. Once it did not end in time, it is not started again: each such wait is long.
pub struct Compared<'a> {
    program: Program<'a>,
    hangs: bool,
}

impl Compared<'_> {
    pub fn new(program: Program<'_>) -> Compared<'_> {
        Compared {
            program,
            hangs: false,
        }
    }
}

/// Compares a run of the program on these bytes, which end or go on.
pub fn same(comparison: &mut Comparison, program: &mut Compared, wrong: &str, bytes: &[u8], ended: bool) {
    if program.hangs {
        return;
    }
    let expected = Outcome::Ended(expected(bytes), Some(0));
    let found = program.program.run(bytes, ended);
    program.hangs = found == Outcome::Hung;
    comparison.run(wrong, found == expected, || {
        // Only inputs with lengths far over the limits are longer, and they are fixed.
        let shown: String = bytes
            .iter()
            .take(4000)
            .map(|byte| format!("{byte:02x}"))
            .collect();
        format!(
            "    expected {expected:?}\n    found {found:?}\n    {} bytes {shown}",
            bytes.len()
        )
    });
}

/// The source's own example, with its input closed, left open and followed by more.
pub fn source(comparison: &mut Comparison, program: &mut Compared) {
    let bytes = encode(&examples::alphabet(), &examples::expression(), &examples::tree());
    let published = "nodes 7 states 29 hits 3\n2 4 3\n3 3 1\n4 5 2\n";
    comparison.check(
        "the published output is another",
        expected(&bytes) == published,
        String::new,
    );
    same(
        comparison,
        program,
        "the source's example prints otherwise",
        &bytes,
        true,
    );
    same(
        comparison,
        program,
        "the program waits for the end of input",
        &bytes,
        false,
    );
    let followed = [&bytes[..], &[0xff; 9]].concat();
    same(
        comparison,
        program,
        "the program reads what follows",
        &followed,
        false,
    );
}

/// The source's input cut at every byte, and counts that announce far more than is there.
fn early_ends(comparison: &mut Comparison, program: &mut Compared) {
    let bytes = encode(&examples::alphabet(), &examples::expression(), &examples::tree());
    let wrong = "an input that ends early is not refused by 0";
    for length in 0..bytes.len() {
        same(comparison, program, wrong, &bytes[..length], true);
    }
    let over = PROGRAM_LIMIT as u32 + 1;
    for count in [over, 0x4000_0000, 0x4000_0001, 0x7fff_ffff, 0x8000_0000, u32::MAX] {
        for place in 0..3 {
            let mut announced = bytes.clone();
            announced[4 * place..4 * place + 4].copy_from_slice(&count.to_le_bytes());
            same(comparison, program, wrong, &announced, true);
        }
    }
    let mut all = bytes.clone();
    all[..12].fill(0xff);
    same(comparison, program, wrong, &all, true);
}

/// Lengths at the limits and far over them, all words present, with other faults beside them.
fn lengths(comparison: &mut Comparison, program: &mut Compared) {
    let own = examples::alphabet();
    let rule = examples::expression();
    let tree = examples::tree();
    let wrong = "a length is refused otherwise";
    for length in [0, 1, SYMBOL_LIMIT, SYMBOL_LIMIT + 1, 300, 100_000] {
        let mut long = own.clone();
        long.resize(length, entry_word(1));
        same(comparison, program, wrong, &encode(&long, &rule, &tree), false);
    }
    for length in [0, 1, EXPRESSION_LIMIT, EXPRESSION_LIMIT + 1, 300, 100_000] {
        let mut long = rule.clone();
        long.resize(length, Operator::Closure(0).word());
        same(comparison, program, wrong, &encode(&own, &long, &tree), false);
    }
    const MOST: usize = PROGRAM_LIMIT;
    for length in [
        0,
        1,
        MOST - 1,
        MOST,
        MOST + 1,
        NODE_LIMIT,
        NODE_LIMIT + 1,
        100_000,
    ] {
        let mut chain = postfix::chain(node_word(examples::D), node_word(examples::G), length);
        same(comparison, program, wrong, &encode(&own, &rule, &chain), false);
        same(comparison, program, wrong, &encode(&own, &[], &chain), false);
        if let Some(word) = chain.last_mut() {
            *word = node_word(200);
        }
        same(comparison, program, wrong, &encode(&own, &rule, &chain), false);
        chain.push(0);
        same(comparison, program, wrong, &encode(&own, &rule, &chain), false);
    }
    let sixteen = limits::alphabet(CONSTANT_LIMIT, 1);
    let chain = postfix::chain(node_word(0), node_word(CONSTANT_LIMIT), MOST);
    for closures in [59, 60, 61, 63] {
        same(
            comparison,
            program,
            "many states print otherwise",
            &encode(&sixteen, &limits::closures(closures), &chain),
            true,
        );
    }
}

/// Chapters of the greatest height that the program takes, and higher ones: they have too many elements, so that 24 is never
/// printed.
fn heights(comparison: &mut Comparison, program: &mut Compared) {
    let wrong = "a high chapter prints otherwise";
    const MOST: usize = PROGRAM_LIMIT;
    for (height, begins) in [
        (MOST, "nodes 256 states 29 hits "),
        (MOST + 1, "refused 9\n"),
        (HEIGHT_LIMIT, "refused 9\n"),
        (HEIGHT_LIMIT + 1, "refused 9\n"),
        (NODE_LIMIT, "refused 9\n"),
    ] {
        let chain = postfix::chain(node_word(examples::D), node_word(examples::G), height);
        let bytes = encode(&examples::alphabet(), &examples::expression(), &chain);
        comparison.check(wrong, expected(&bytes).starts_with(begins), String::new);
        same(comparison, program, wrong, &bytes, true);
    }
}

fn random_input(
    comparison: &mut Comparison,
    program: &mut Compared,
    random: &mut Random,
    patterns: Patterns,
) {
    let Pattern {
        mut alphabet,
        mut expression,
    } = patterns.draw(random);
    let read = Expression::read(&alphabet, &expression).expect("an expression");
    let budget = if random.once_in(8) {
        random.between(PROGRAM_LIMIT - 56, PROGRAM_LIMIT + 14)
    } else {
        random.between(1, 40)
    };
    let mut tree = draw::planted_tree(random, &alphabet, &read, budget);
    if !words::holes(&alphabet).is_empty() && random.once_in(4) {
        holes::put(random, &alphabet, &mut tree);
    }
    let mut tree = words::node_words(&tree);
    match random.below(6) {
        0 => generate::flip(random, &mut alphabet),
        1 => generate::flip(random, &mut expression),
        2 => generate::flip(random, &mut tree),
        _ => {}
    }
    let bytes = encode(&alphabet, &expression, &tree);
    let ended = random.once_in(2);
    same(
        comparison,
        program,
        "a random input prints otherwise",
        &bytes,
        ended,
    );
}
