//! Random and damaged input for every function, through the safe package and through the raw C functions, each answer held to a
//! reading of document 01: the one of `compare/src`, which shares nothing with the library.
//!
//!   hammer [COUNT] [SEED] [THREADS]   1,000,000 inputs of seed 1 in one thread, if nothing is said
//!
//! Of sixteen inputs nine are single operations, one is a rack, two are texts, two are recipes made by hand and printed, two are listings with a
//! start place and a budget. Rows stand between guards. What was met is counted. Status 1: an answer differs, or a refusal, an end or a trap was never
//! met, or one that there isn't.

mod by_hand;
mod listings;
mod operations;
mod racks;
mod raw;
mod tally;
mod translated;
mod written;

/// The reading of document 01, and the makers of texts, as `compare/` has them.
macro_rules! of_compare {
    ($($name:ident $path:literal;)+) => {$(
        #[allow(dead_code, clippy::all)]
        #[path = $path]
        mod $name;
    )+};
}
of_compare! {
    cases "../../../../compare/src/cases.rs";
    document "../../../../compare/src/document.rs";
    packed "../../../../compare/src/packed.rs";
    recipes "../../../../compare/src/recipes.rs";
    steps "../../../../compare/src/steps.rs";
    texts "../../../../compare/src/texts.rs";
    tuned "../../../../compare/src/tuned.rs";
}

use cases::Random;
use std::process::ExitCode;
use std::thread;
use std::time::Instant;
use tally::Tally;

fn hammer(count: u64, seed: u64) -> Tally {
    let mut random = Random(seed);
    let mut tally = Tally::default();
    for at in 0..count {
        match at % 16 {
            0 => racks::try_one(&mut random, &mut tally),
            1..10 => operations::try_one(&mut random, &mut tally),
            10..12 => written::try_one(&mut random, &mut tally),
            12..14 => by_hand::try_one(&mut random, &mut tally),
            _ => listings::try_one(&mut random, &mut tally),
        }
    }
    tally
}

/// Each thread has a share of the inputs, random numbers and rows of its own.
fn in_threads(count: u64, seed: u64, threads: u64) -> Tally {
    let share = move |at: u64| count / threads + u64::from(at < count % threads);
    let started: Vec<_> = (0..threads)
        .map(|at| thread::spawn(move || hammer(share(at), seed.wrapping_add(at << 32))))
        .collect();
    let mut all = Tally::default();
    for thread in started {
        match thread.join() {
            Ok(tally) => all.take(&tally),
            Err(_) => all.differ(|| "a thread panicked".into()),
        }
    }
    all
}

fn main() -> ExitCode {
    let words: Vec<Option<u64>> = std::env::args().skip(1).map(|word| word.parse().ok()).collect();
    let word = |at: usize, otherwise: u64| words.get(at).copied().unwrap_or(Some(otherwise));
    let (Some(count), Some(seed), Some(threads @ 1..)) = (word(0, 1_000_000), word(1, 1), word(2, 1)) else {
        eprintln!("hammer: usage: hammer [COUNT] [SEED] [THREADS]");
        return ExitCode::from(2);
    };
    let start = Instant::now();
    let tally = in_threads(count, seed, threads);
    tally.print();
    println!("{count} inputs, seed {seed}, threads {threads}, {:.1} s", start.elapsed().as_secs_f64());
    if tally.is_good() { ExitCode::SUCCESS } else { ExitCode::FAILURE }
}
