//! The cost of several ways to do the same. They are timed in turn, so that other work on the machine hits all alike.

use std::hint::black_box;
use std::time::Instant;

/// One way to do something; a digest of what came of it.
pub type Way<'a> = &'a dyn Fn() -> u64;

/// Seconds of each way, the best of so many turns; nothing if two digests differ.
pub fn best(turns: u32, ways: &[Way]) -> Option<Vec<f64>> {
    let mut best = vec![f64::MAX; ways.len()];
    let mut digests = vec![0; ways.len()];
    for _ in 0..turns {
        for (i, way) in ways.iter().enumerate() {
            let start = Instant::now();
            digests[i] = black_box(way());
            best[i] = best[i].min(start.elapsed().as_secs_f64());
        }
    }
    digests.iter().all(|&digest| digest == digests[0]).then_some(best)
}
