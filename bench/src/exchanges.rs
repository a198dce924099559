//! Exchange beside the incremental one and a fresh Run: a leaf for another leaf and back, at places spread over the
//! chapter, and a subtree of about 100 elements for another and back. After each pair the chapter, its marks and its totals are
//! as before.

use crate::equal::accepted;
use crate::incremental;
use crate::measure::Measure;
use crate::runs::library_run;
use crate::targets::Target;
use crate::totals;
use crate::workloads::Workload;
use peer::call::Call;
use peer::chance::Random;
use peer::compare::Comparison;
use peer::generate;
use peer::library;
use peer::model;
use peer::postfix;
use peer::words;

/// Two exchanges of which the second takes back the first: the element and the replacement of each.
pub struct Pair {
    there: (usize, Vec<u32>),
    back: (usize, Vec<u32>),
}

impl Pair {
    pub fn steps(&self) -> [&(usize, Vec<u32>); 2] {
        [&self.there, &self.back]
    }
}

fn sizes(work: &Workload) -> Vec<usize> {
    let symbols = words::symbols(&work.tree);
    postfix::sizes(&postfix::tree_children(&symbols, &words::arities(&work.alphabet)))
}

fn pair(work: &Workload, sizes: &[usize], node: usize, replacement: Vec<u32>) -> Pair {
    let start = node + 1 - sizes[node];
    Pair {
        back: (start + replacement.len() - 1, work.tree[start..=node].to_vec()),
        there: (node, replacement),
    }
}

/// Sixteen leaves spread over the chapter, or as many as there are, each for another constant that is no hole.
pub fn leaves(work: &Workload) -> Vec<Pair> {
    let sizes = sizes(work);
    let all: Vec<usize> = (0..work.tree.len()).filter(|node| sizes[*node] == 1).collect();
    let constants = words::leaves(&work.replacements);
    all.iter()
        .step_by(all.len().div_ceil(16))
        .map(|node| {
            let own = words::read_node(work.tree[*node]).expect("an element");
            let other = constants
                .iter()
                .find(|constant| **constant != own)
                .expect("two constants");
            pair(work, &sizes, *node, vec![words::node_word(*other)])
        })
        .collect()
}

/// The subtree whose size is nearest to 100, for a random one of no more elements.
pub fn subtree(work: &Workload) -> Vec<Pair> {
    let sizes = sizes(work);
    let node = (0..sizes.len())
        .min_by_key(|node| sizes[*node].abs_diff(100))
        .expect("a node");
    let replacement = generate::tree(&mut Random::new(100), &work.replacements, sizes[node]);
    vec![pair(work, &sizes, node, words::node_words(&replacement))]
}

/// An Exchange on the chapter and with the record as Run leaves them; the element and the replacement are to be set.
pub fn exchange(work: &Workload) -> Call {
    let read = work.read_table();
    let sets = model::state_sets(&work.alphabet, &read, &work.tree);
    let tree = work.tree.clone();
    Call::exchange(&work.alphabet, &work.table, tree, work.tree.len(), sets, 0, &[])
}

/// Compares both exchanges of every pair, with a right record and near the limit, and that the second takes back the first.
pub fn compare(comparison: &mut Comparison, work: &Workload) {
    let start = exchange(work);
    for pair in leaves(work).into_iter().chain(subtree(work)) {
        let mut call = start.clone();
        for (node, replacement) in [pair.there, pair.back] {
            call.node = node;
            call.replacement = replacement;
            let answer = accepted(comparison, work, &call);
            totals::compare(comparison, work, &call, &answer);
            call = answer.after;
            call.count = answer.values[0] as usize;
        }
        let as_before = call.tree == start.tree && call.sets == start.sets && call.totals == start.totals;
        comparison.check("a timed exchange is not taken back", as_before, || {
            call.to_string()
        });
    }
}

/// An Exchange on the call's own slices; answers the new element count and the number worked out.
type Exchange = fn(&mut Call) -> [u32; 2];

fn by_library(call: &mut Call) -> [u32; 2] {
    let mut values = [0; 2];
    assert_eq!(library::perform(call, &mut values), 0, "a timed call is refused");
    values
}

fn by_peer(call: &mut Call) -> [u32; 2] {
    incremental::perform(call).expect("an accepted call")
}

/// Seconds of one exchange, on average over both exchanges of every pair.
fn seconds(measure: &Measure, work: &Workload, pairs: &[Pair], exchange_by: Exchange) -> f64 {
    let mut call = exchange(work);
    let all = measure.seconds(|| recomputed(&mut call, pairs, exchange_by));
    all / (2 * pairs.len()) as f64
}

/// Seconds of one Exchange of the library: of a leaf, and of about 100 elements.
pub fn library_exchanges(measure: &Measure, work: &Workload) -> [f64; 2] {
    [leaves(work), subtree(work)].map(|pairs| seconds(measure, work, &pairs, by_library))
}

/// Makes both exchanges of every pair; answers how many elements were worked out in all.
fn recomputed(call: &mut Call, pairs: &[Pair], exchange_by: Exchange) -> u32 {
    let mut sum = 0;
    for (node, replacement) in pairs.iter().flat_map(Pair::steps) {
        call.node = *node;
        call.replacement.clear();
        call.replacement.extend_from_slice(replacement);
        let [count, recomputed] = exchange_by(call);
        call.count = count as usize;
        sum += recomputed;
    }
    sum
}

/// What one exchange takes on average: seconds, and elements worked out.
struct Cost {
    library: f64,
    peer: f64,
    recomputed: f64,
}

impl Cost {
    fn measured(measure: &Measure, work: &Workload, pairs: &[Pair]) -> Cost {
        let all = recomputed(&mut exchange(work), pairs, by_peer);
        Cost {
            library: seconds(measure, work, pairs, by_library),
            peer: seconds(measure, work, pairs, by_peer),
            recomputed: f64::from(all) / (2 * pairs.len()) as f64,
        }
    }

    fn ratio(&self) -> f64 {
        self.library / self.peer
    }

    /// The columns of one kind of exchange.
    fn columns(&self, run: f64) -> String {
        format!(
            "{:.1} | {:.1} | {:.2} | {:.3} | {:.1}",
            self.library * 1e6,
            self.peer * 1e6,
            self.ratio(),
            self.library / run,
            self.recomputed
        )
    }
}

/// Prints the table, and answers what it is held to.
pub fn print(measure: &Measure, workloads: &[Workload]) -> [Target; 3] {
    println!("Exchange: microseconds a call of the library and of the incremental peer, and how many times as long the");
    println!(
        "library takes; the library's as a part of a fresh Run; and the elements worked out on average.\n"
    );
    println!(
        "| workload | fresh Run | one leaf | peer | ratio | part | worked out | about 100 elements | peer | ratio | part | \
         worked out |"
    );
    println!("|---|---|---|---|---|---|---|---|---|---|---|---|");
    let mut one = Target::new("Exchange of one leaf to incremental", 2.0);
    let mut hundred = Target::new("Exchange of about 100 elements to incremental", 2.0);
    let mut whole = Target::new("Exchange to a fresh Run, where a leaf changes every element", 1.5);
    for work in workloads {
        let run = library_run(measure, work, &work.tree);
        let leaf = Cost::measured(measure, work, &leaves(work));
        let subtree = Cost::measured(measure, work, &subtree(work));
        println!(
            "| {} | {:.1} | {} | {} |",
            work.name,
            run * 1e6,
            leaf.columns(run),
            subtree.columns(run)
        );
        one.meet(leaf.ratio(), work.name);
        hundred.meet(subtree.ratio(), work.name);
        if leaf.recomputed == work.tree.len() as f64 {
            whole.meet(leaf.library.max(subtree.library) / run, work.name);
        }
    }
    [one, hundred, whole]
}
