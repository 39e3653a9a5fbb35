//! The time of one call, as the best of several batches.

use std::time::{Duration, Instant};

const BATCHES: usize = 9;

/// A batch lasts at least so long, unless one call already does.
const BATCH: Duration = Duration::from_millis(4);

/// Microseconds for one run of the body.
pub fn best(mut body: impl FnMut()) -> f64 {
    let mut batch = |runs: u32| {
        let begin = Instant::now();
        for _ in 0..runs {
            body();
        }
        begin.elapsed()
    };
    let mut runs = 1;
    let mut last = batch(runs);
    while last < BATCH {
        runs *= 2;
        last = batch(runs);
    }
    let batches = if last > 20 * BATCH { 2 } else { BATCHES };
    let fastest = (0..batches).map(|_| batch(runs)).min().unwrap_or(last);
    fastest.as_secs_f64() * 1e6 / f64::from(runs)
}
