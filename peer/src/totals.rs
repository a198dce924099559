//! Document 02's U10: the record of a chapter's three totals. Run sets it; Exchange moves each total by the difference that it
//! makes in the used nodes and their stored words, whatever the total was before.

use crate::call::Call;
use crate::limits::TOTAL_LIMIT;
use crate::marks::Table;
use crate::words;

/// How many nodes there are, how many of them are matches, and how many ones their words have (document 01: elements, hits
/// and cells).
pub type Totals = [u32; 3];

// Where each total stands.
pub const NODES: usize = 0;
pub const MATCHES: usize = 1;
pub const CELLS: usize = 2;

/// The totals of the nodes whose state sets are stored in these words. Bits beyond the last state are counted too.
pub fn counted(table: &Table, sets: &[u32]) -> Totals {
    let rows = || sets.chunks(table.width());
    let matches = rows().filter(|own| table.is_match(own)).count();
    [rows().len() as u32, matches as u32, words::count_ones(sets)]
}

/// The most that the totals of so many nodes can be.
pub fn most(nodes: usize, table: &Table) -> Totals {
    [1, 1, 32 * table.width()].map(|each| (each * nodes) as u32)
}

/// What each total becomes by an exchange before which the used nodes have these totals, and after which they have those.
pub fn moved(record: Totals, before: Totals, after: Totals) -> [i64; 3] {
    [NODES, MATCHES, CELLS]
        .map(|total| i64::from(record[total]) - i64::from(before[total]) + i64::from(after[total]))
}

/// Whether a total is below zero or above the figure.
pub fn is_outside(totals: [i64; 3]) -> bool {
    totals
        .iter()
        .any(|total| !(0..=i64::from(TOTAL_LIMIT)).contains(total))
}

/// The record that is right for the used nodes of a call. Where they have no state sets it says how many they are.
pub fn right(call: &Call) -> Totals {
    let table = Table::read(&call.alphabet, &call.table);
    let used = table.and_then(|table| {
        let sets = call.sets.get(..call.count.checked_mul(table.width())?)?;
        Some(counted(&table, sets))
    });
    used.unwrap_or([call.count as u32, 0, 0])
}
