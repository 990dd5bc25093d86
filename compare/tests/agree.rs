//! A short run of what `differ` does at length.

use compare::cases::Random;
use compare::check::{Tally, crate_and_reading};
use compare::oracle::Oracle;
use compare::packed::OPS;

#[test]
fn crate_and_reading_agree_on_random_requests() {
    let (mut oracle, mut random) = (Oracle::default(), Random(1));
    let mut tally = Tally::default();
    for op in OPS {
        for &size in op.sizes() {
            for _ in 0..10_000 {
                crate_and_reading(&mut oracle, random.request(op, size), &mut tally);
            }
        }
    }
    let forms: usize = OPS.iter().map(|op| op.sizes().len()).sum();
    assert_eq!((tally.cases, tally.differing), (10_000 * forms as u64, 0));
}
