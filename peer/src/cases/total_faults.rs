//! Records as faults of an Exchange (document 02, U10), for `faults`, where each meets every other fault: a total that is
//! above the figure by more than any exchange takes away.

use crate::cases::faults::Fault;
use crate::totals::{CELLS, MATCHES, NODES};

pub fn record() -> Vec<Fault> {
    vec![
        (27, |call| call.totals = [u32::MAX; 3]),
        (27, |call| call.totals[NODES] = u32::MAX),
        (27, |call| call.totals[MATCHES] = 1 << 31),
        (27, |call| call.totals[CELLS] = 1 << 24),
    ]
}
