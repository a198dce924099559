//! The inputs that are timed: a rule and a chapter each, made from a fixed seed.

use crate::anything;
use crate::books;
use crate::byhand;
use peer::automaton;
use peer::cases::holes::source_with;
use peer::cases::{examples, largest};
use peer::chance::Random;
use peer::generate;
use peer::limits::{CONSTANT_LIMIT, HEIGHT_LIMIT, NODE_LIMIT};
use peer::marks::Table;
use peer::postfix;
use peer::words::{self, entry_word, Operator};

#[derive(Clone)]
pub struct Workload {
    pub name: &'static str,
    pub alphabet: Vec<u32>,
    /// The alphabet over which replacements are made.
    pub replacements: Vec<u32>,
    pub expression: Vec<u32>,
    pub table: Vec<u32>,
    pub tree: Vec<u32>,
    /// The same kind of chapter with an eighth of the elements.
    pub eighth: Vec<u32>,
}

impl Workload {
    fn new(
        name: &'static str,
        (alphabet, expression): (Vec<u32>, Vec<u32>),
        tree: impl Fn(&[u32], usize) -> Vec<usize>,
    ) -> Workload {
        let table = automaton::table(&alphabet, &expression).expect("an expression");
        Workload {
            expression,
            ..Workload::with_table(name, (alphabet, table), tree)
        }
    }

    /// A table that no rule gives: the expression is left empty.
    fn with_table(
        name: &'static str,
        (alphabet, table): (Vec<u32>, Vec<u32>),
        tree: impl Fn(&[u32], usize) -> Vec<usize>,
    ) -> Workload {
        let [tree, eighth] = [NODE_LIMIT, NODE_LIMIT / 8].map(|nodes| {
            let tree = tree(&alphabet, nodes);
            let height = postfix::tree_height(&tree, &words::arities(&alphabet));
            assert!(height <= HEIGHT_LIMIT, "{name}: the chapter is {height} high");
            words::node_words(&tree)
        });
        Workload {
            name,
            replacements: alphabet.clone(),
            alphabet,
            expression: Vec::new(),
            table,
            tree,
            eighth,
        }
    }

    pub fn has_rule(&self) -> bool {
        !self.expression.is_empty()
    }

    /// How many words a node's state set takes.
    pub fn width(&self) -> usize {
        self.read_table().width()
    }

    pub fn states(&self) -> usize {
        self.read_table().states
    }

    /// The table as the model reads it.
    pub fn read_table(&self) -> Table {
        Table::read(&self.alphabet, &self.table).expect("a table")
    }
}

pub fn all() -> Vec<Workload> {
    let source = || (examples::alphabet(), examples::expression());
    vec![
        Workload::new("source's rule, random", source(), random_tree),
        Workload::new("1,024 states, random", full(), random_tree),
        Workload::new("largest table, random", largest::largest(), random_tree),
        Workload::new("source's rule, comb", source(), comb),
        Workload::new(
            "book, repetitive",
            books::emphasis_before_text(),
            books::repetitive,
        ),
        Workload::new("book, many sets", books::emphasis_at_sixteen(), books::random),
        Workload::with_table("table by hand, chains", byhand::table(), byhand::chains),
    ]
}

/// The source's rule over its alphabet with the constants that the rule names as holes, on a random chapter of the most
/// elements and on one of 500; before each, the same without the marks. No chapter and no replacement has a hole.
pub fn with_holes() -> [[Workload; 2]; 2] {
    let source = || (source_with(&[examples::C, examples::D]), examples::expression());
    let few = |alphabet: &[u32], nodes: usize| random_tree(alphabet, nodes * 500 / NODE_LIMIT);
    let works = [
        Workload::new("source's rule with holes, random", source(), random_tree),
        Workload::new("source's rule with holes, 500 elements", source(), few),
    ];
    works.map(|work| {
        let unmarked = Workload {
            alphabet: examples::alphabet(),
            ..work.clone()
        };
        [unmarked, work]
    })
}

/// Rules with anything.
pub fn with_anything() -> Vec<Workload> {
    vec![
        Workload::new("closure with anything, random", anything::closure(), random_tree),
        Workload::new("book, emphasis first", books::emphasis_first(), books::random),
        Workload::new("2,048 table words, random", anything::largest(), random_tree),
    ]
}

fn random_tree(alphabet: &[u32], nodes: usize) -> Vec<usize> {
    generate::tree(&mut Random::new(6), alphabet, nodes)
}

/// One g above the other over a d: as high as a chapter may be, and an eighth of that.
fn comb(_: &[u32], nodes: usize) -> Vec<usize> {
    postfix::chain(examples::D, examples::G, nodes * HEIGHT_LIMIT / NODE_LIMIT)
}

/// 60 words with entries and 4 constants over 16 constants, with every operator among them.
fn full() -> (Vec<u32>, Vec<u32>) {
    let mut alphabet = vec![entry_word(0); CONSTANT_LIMIT];
    alphabet.extend((1..=3).map(entry_word));
    let (unary, binary) = (CONSTANT_LIMIT, CONSTANT_LIMIT + 1);
    let mut operators: Vec<Operator> = (0..4).map(Operator::Symbol).collect();
    operators.extend([Operator::Symbol(binary), Operator::Union, Operator::Product(0)]);
    for place in 0..57 {
        operators.push(match place % 3 {
            0 => Operator::Symbol(unary),
            _ => Operator::Closure(place % CONSTANT_LIMIT),
        });
    }
    (alphabet, words::operator_words(&operators))
}
