//! Time for one call: the best of many short batches, each long enough for the clock, so that some of them are not
//! interrupted.

use peer::call::Call;
use peer::library;
use std::hint::black_box;
use std::time::{Duration, Instant};

/// How many batches of a call are made.
pub const BATCHES: usize = 40;

pub struct Measure {
    pub batch: Duration,
    pub batches: usize,
}

impl Measure {
    /// Seconds for one call of `work`, whose answer counts as used.
    pub fn seconds<T>(&self, mut work: impl FnMut() -> T) -> f64 {
        let calls = self.calls(&mut work);
        let mut best = f64::INFINITY;
        for _ in 0..self.batches {
            let start = Instant::now();
            for _ in 0..calls {
                black_box(work());
            }
            best = best.min(start.elapsed().as_secs_f64() / f64::from(calls));
        }
        best
    }

    /// How many calls fill a batch.
    fn calls<T>(&self, work: &mut impl FnMut() -> T) -> u32 {
        let mut calls = 1;
        loop {
            let start = Instant::now();
            for _ in 0..calls {
                black_box(work());
            }
            if start.elapsed() >= self.batch / 2 {
                return calls;
            }
            calls *= 2;
        }
    }
}

/// Seconds of one call of the library, which must accept it: a refusal would be timed for nothing.
pub fn library_call(measure: &Measure, mut call: Call) -> f64 {
    let mut values = [0; 2];
    assert_eq!(
        library::perform(&mut call, &mut values),
        0,
        "a timed call is refused"
    );
    measure.seconds(|| library::perform(&mut call, &mut values))
}
