//! Runs of step listings: the port's ways (the C function `listing_run`; `run_array`; `run` and `run_in` over a slice; single
//! steps by `perform_in`) against a hand-tuned Rust loop and, where every step is done, against a loop through the crate's
//! exec functions, to whose figures the known differences are added. What they cost: `alone` and `shipped`.
//!
//!   runs agree [LISTINGS]   that all answer the same, on random listings; as many listings with other lines, and in any words; then as
//!                           many racks, by `rack` and `rack_run`
//!   runs rack [ROUNDS]      nanoseconds a box of a rack of 64, and of as many single runs

use compare::c_functions::listing_run;
use compare::cases::Random;
use compare::machine::Machine;
use compare::ported;
use compare::recipes::SLOTS;
use compare::steps::{FIRST, MIXED, Ran, State, Step, Told, WILD, answered, listing_of, registers};
use compare::tuned;
use compare::{line_checks, rack_checks, rack_speed};
use std::process::ExitCode;

/// Rounds of runs of one listing's first `count` steps, each from the state that the last one left.
#[derive(Clone, Copy)]
struct Laps {
    kinds: u32,
    seed: u32,
    rounds: u32,
    count: usize,
    start: usize,
    budget: u32,
}

/// A run of a listing's first steps: listing, how many, state, start place, budget.
type Run = fn(&[Step; SLOTS], usize, &mut State, usize, u32) -> Ran;

fn slice(listing: &[Step; SLOTS], count: usize, state: &mut State, start: usize, budget: u32) -> Ran {
    ported::run(&listing[..count], state, start, budget)
}

fn lent(listing: &[Step; SLOTS], count: usize, state: &mut State, start: usize, budget: u32) -> Ran {
    ported::run_in(&listing[..count], state, start, budget)
}

/// By single steps, of a copy of the listing that the port itself has written.
fn steps(listing: &[Step; SLOTS], count: usize, state: &mut State, start: usize, budget: u32) -> Ran {
    ported::by_steps(&ported::stored(listing)[..count], state, start, budget)
}

fn by_hand(listing: &[Step; SLOTS], count: usize, state: &mut State, start: usize, budget: u32) -> Ran {
    tuned::run(&listing[..count], state, start, budget)
}

impl Laps {
    /// A digest of what is told of each round.
    fn summed(self, mut run: impl FnMut() -> Told) -> u64 {
        (0..self.rounds).fold(0, |sum, _| answered(sum, run()))
    }

    fn digest(self, run: Run) -> u64 {
        let (listing, mut state) = (listing_of(self.kinds, self.seed), FIRST);
        let sum = self.summed(|| run(&listing, self.count, &mut state, self.start, self.budget).told());
        registers(sum, &state)
    }

    /// By the C function, of the steps in words.
    fn in_words(self) -> u64 {
        let (listing, mut state) = (listing_of(self.kinds, self.seed), FIRST);
        let words: Vec<u64> = listing[..self.count].iter().map(Step::word).collect();
        let sum = self.summed(|| listing_run(&words, &mut state, self.start, self.budget));
        registers(sum, &state)
    }

    fn source(self) -> u64 {
        let (listing, mut machine) = (listing_of(self.kinds, self.seed), Machine::new(FIRST));
        let sum =
            self.summed(|| machine.run_with_figures(&listing[..self.count], self.start, self.budget).told());
        registers(sum, &machine.state())
    }
}

/// A listing's digest, from everyone who can run it; false if two differ.
fn agrees(laps: Laps) -> bool {
    let want = laps.digest(by_hand);
    let ported = [
        laps.in_words(),
        laps.digest(ported::run_array),
        laps.digest(slice),
        laps.digest(lent),
        laps.digest(steps),
    ];
    let crates = laps.kinds == WILD || laps.start > laps.count || laps.source() == want;
    let good = crates && ported.iter().all(|&got| got == want);
    if !good {
        println!(
            "DIFFERS: seed {} kinds {} count {} start {} budget {}: tuned {want}, words, array, slice, lent, steps {ported:?}, crate {}",
            laps.seed,
            laps.kinds,
            laps.count,
            laps.start,
            laps.budget,
            if laps.kinds == WILD { 0 } else { laps.source() }
        );
    }
    good
}

fn agree(listings: u32, mut random: Random) -> ExitCode {
    let (mut differ, mut steps) = (0u64, 0u64);
    for seed in 0..listings {
        let count = seed as usize % (SLOTS + 1);
        let laps = Laps {
            kinds: if seed % 2 == 0 { MIXED } else { WILD },
            seed: seed.wrapping_mul(2_654_435_761),
            rounds: 8,
            count,
            start: if seed % 5 == 0 { (seed as usize / 5) % (count + 3) } else { 0 },
            budget: if seed % 3 == 0 { seed / 3 % 300 } else { u32::MAX },
        };
        differ += u64::from(!agrees(laps));
        steps += u64::from(laps.rounds) * count as u64;
    }
    println!("total {listings} listings, at most {steps} steps each way, {differ} differ");
    let (lines_differ, lines_met) = line_checks::compare(listings, &mut random);
    let (racks_differ, racks_met) = rack_checks::compare(listings, &mut random);
    match (differ + lines_differ + racks_differ, lines_met && racks_met) {
        (0, true) => ExitCode::SUCCESS,
        (0, false) => ExitCode::from(2),
        _ => ExitCode::FAILURE,
    }
}

fn main() -> ExitCode {
    let words: Vec<String> = std::env::args().skip(1).collect();
    let number = |default| words.get(1).map_or(Some(default), |word| word.parse().ok());
    match (words.first().map(String::as_str), words.len()) {
        (Some("agree"), 1 | 2) => {
            let asked = number(100_000).zip(Random::seeded());
            asked.map_or(ExitCode::from(2), |(listings, random)| agree(listings, random))
        }
        (Some("rack"), 1 | 2) => {
            number(301).filter(|&n| n > 0).map_or(ExitCode::from(2), rack_speed::measure)
        }
        _ => {
            eprintln!(
                "runs: usage: runs agree [LISTINGS] | runs speed [ROUNDS] | runs shipped [ROUNDS] | runs alone [ROUNDS] | runs growth [TURNS] | runs rack [ROUNDS]; SEED is a number"
            );
            ExitCode::from(2)
        }
    }
}
