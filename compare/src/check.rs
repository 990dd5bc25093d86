//! Holding answers against each other, and counting.

use crate::document;
use crate::oracle::Oracle;
use crate::packed::{Answer, Request};
use std::fmt::Display;
use std::ops::AddAssign;

/// How many disagreements a tally prints whole; the rest it only counts.
const SHOWN: u64 = 3;

/// What was compared, and how much of it differs.
#[derive(Clone, Copy, Default)]
pub struct Tally {
    pub cases: u64,
    pub differing: u64,
}

impl Tally {
    /// Counts one case; `text` describes it should it differ.
    #[inline(always)]
    pub fn count(&mut self, agrees: bool, text: impl FnOnce() -> String) {
        self.cases += 1;
        if !agrees {
            self.differ(text);
        }
    }

    #[cold]
    fn differ(&mut self, text: impl FnOnce() -> String) {
        self.differing += 1;
        if self.differing <= SHOWN {
            println!("DIFFERS {}", text());
        }
    }

    pub fn print(&self, what: impl Display) {
        println!("{what}: {} cases, {} differ", self.cases, self.differing);
    }
}

impl AddAssign for Tally {
    fn add_assign(&mut self, other: Tally) {
        self.cases += other.cases;
        self.differing += other.differing;
    }
}

/// The crate against the reading of document 01. Outside its domain nothing is counted.
#[inline(always)]
pub fn crate_and_reading(oracle: &mut Oracle, r: Request, tally: &mut Tally) {
    if r.in_domain() {
        let (by_crate, reading) = (oracle.answer(r), document::answer(r));
        tally.count(by_crate.comparable(r.op) == reading.comparable(r.op), || {
            format!("{r}\n  crate    {by_crate}\n  reading  {reading}")
        });
    }
}

/// The port against the reading in all bits (so on refusals and on figures of our own too), and against
/// the crate where that has an answer.
#[inline(always)]
pub fn port_and_both(port: Answer, oracle: &mut Oracle, r: Request, tally: &mut Tally) {
    let reading = document::answer(r);
    let by_crate = if r.in_domain() { oracle.answer(r) } else { reading };
    tally.count(port == reading && port.comparable(r.op) == by_crate.comparable(r.op), || {
        format!("{r}\n  port     {port}\n  reading  {reading}\n  crate    {by_crate}")
    });
}
