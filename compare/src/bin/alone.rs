//! What runs of step listings cost: the port's `run_in`, which is lent the registers, its `run` over a slice and its `run_array`,
//! each compiled alone, against a loop through the crate's exec functions and a hand-tuned Rust loop. All of them stand in
//! each of the shared objects of a folder (src/places.rs).
//!
//!   alone FOLDER alone [ROUNDS]   nanoseconds a step of a whole array of mixed steps, and of each kind alone
//!   alone FOLDER growth [TURNS]   nanoseconds a run and a step of mixed listings of 1 to 65,536 steps

use compare::places::{Ask, Place, costs, ended, mean, opened, spread};
use compare::recipes::SLOTS;
use compare::steps::{MIXED, Step, listing_of, steps_of};
use std::process::ExitCode;

/// The ways to run a listing, in the order of the tables. The last can't run one that is longer than an array.
const WAYS: [&str; 5] = ["in", "slice", "crate", "tuned", "array"];
const ROUNDS: [&str; WAYS.len()] =
    ["in_rounds", "slice_rounds", "crate_rounds", "tuned_rounds", "array_rounds"];

/// The port's ways by crate, then by tuned, as places in `WAYS`.
const RATIOS: [(usize, usize); 6] = [(0, 2), (1, 2), (4, 2), (0, 3), (1, 3), (4, 3)];

fn ratio_names() -> String {
    RATIOS.map(|(port, to)| format!("{}/{}", WAYS[port], WAYS[to])).join("\t")
}

/// What is known of each way, with two digits.
fn fields(costs: &[Option<f64>]) -> String {
    let shown = |cost: &Option<f64>| cost.map_or("-".into(), |cost| format!("{cost:.2}"));
    costs.iter().map(shown).collect::<Vec<String>>().join("\t")
}

fn ratios(costs: &[Option<f64>; WAYS.len()]) -> [Option<f64>; RATIOS.len()] {
    RATIOS.map(|(port, to)| Some(costs[port]? / costs[to]?))
}

const KINDS: [(&str, u32); 8] = [
    ("mixed", MIXED),
    ("ADD SUB CMP ADDX SUBX", 0),
    ("ADDA SUBA CMPA", 5),
    ("ADDQ SUBQ", 7),
    ("CLR NEG NEGX NOT EXT", 9),
    ("shifts, rotates", 11),
    ("bit operations", 14),
    ("CHK", 15),
];

/// Turns of which the best counts.
const TURNS: u32 = 15;

/// A table of means, then one of the least and the greatest.
fn steps(places: &[Place], rounds: u32) -> Result<(), String> {
    println!(
        "ns a step, the mean of {} places; ratios to the crate's loop and to the tuned loop",
        places.len()
    );
    println!("steps\t{}\t{}", WAYS.join("\t"), ratio_names());
    let mut spreads = Vec::new();
    for (name, kinds) in KINDS {
        let listing = listing_of(kinds, 1);
        let asked = ROUNDS.map(|way| Ask::new(way, &listing));
        let by_run = costs(places, &asked, rounds.div_ceil(2) as usize, TURNS)
            .map_err(|why| format!("{why}: {name}"))?;
        let by_step: Vec<Vec<f64>> =
            by_run.iter().map(|way| way.iter().map(|ns| ns / SLOTS as f64).collect()).collect();
        let means = std::array::from_fn(|way| Some(mean(&by_step[way])));
        println!("{name}\t{}\t{}", fields(&means), fields(&ratios(&means)));
        let spread: Vec<String> = by_step.iter().map(|way| spread(way)).collect();
        spreads.push(format!("{name}\t{}", spread.join("\t")));
    }
    println!("\nns a step, the least and the greatest of the places");
    println!("steps\t{}\n{}", WAYS.join("\t"), spreads.join("\n"));
    Ok(())
}

/// Lengths of listings, and how many different steps they have; the others are these again.
const LENGTHS: [(usize, usize); 15] = [
    (1, 1),
    (2, 2),
    (4, 4),
    (8, 8),
    (16, 16),
    (32, 32),
    (64, 64),
    (128, 128),
    (SLOTS, SLOTS),
    (1024, SLOTS),
    (4096, SLOTS),
    (65_536, SLOTS),
    (1024, 1024),
    (4096, 4096),
    (65_536, 65_536),
];

/// Listings of each length, each run at the next place.
const LISTINGS: usize = 16;

/// How many pairs of runs a turn has, which takes a millisecond or two: other work on the machine spoils a long turn.
fn pairs(length: usize) -> usize {
    (1 << 17) / (length + 16) + 1
}

/// Nanoseconds a run, the mean of some listings, for each of `WAYS` that can run them.
fn mean_costs(
    places: &[Place],
    length: usize,
    different: usize,
    turns: u32,
) -> Result<[Option<f64>; WAYS.len()], String> {
    let mut sums = [None; WAYS.len()];
    let ways = if length <= SLOTS { &ROUNDS[..] } else { &ROUNDS[..WAYS.len() - 1] };
    for (seed, place) in (1..=LISTINGS as u32).zip(places.chunks(1).cycle()) {
        let steps: Vec<Step> = steps_of(MIXED, seed.wrapping_mul(2_654_435_761)).take(different).collect();
        let listing: Vec<Step> = steps.into_iter().cycle().take(length).collect();
        let asked: Vec<Ask> = ways.iter().map(|way| Ask::new(way, &listing)).collect();
        let costs = costs(place, &asked, pairs(length), turns)?;
        for (sum, cost) in sums.iter_mut().zip(&costs) {
            *sum = Some(sum.unwrap_or(0.0) + mean(cost) / LISTINGS as f64);
        }
    }
    Ok(sums)
}

fn growth(places: &[Place], turns: u32) -> Result<(), String> {
    let names = WAYS.join("\t");
    println!("ns a run, then ns a step; ratios to the crate's loop and to the tuned loop");
    println!("steps\tdifferent\t{names}\t{names}\t{}", ratio_names());
    for (length, different) in LENGTHS {
        let by_run = mean_costs(places, length, different, turns)
            .map_err(|why| format!("{why}: {length} steps, {different} different"))?;
        let by_step = by_run.map(|cost| Some(cost? / length as f64));
        println!(
            "{length}\t{different}\t{}\t{}\t{}",
            fields(&by_run),
            fields(&by_step),
            fields(&ratios(&by_run))
        );
    }
    Ok(())
}

fn measure(folder: &str, what: &str, number: Option<u32>) -> Result<(), String> {
    let places = opened(folder)?;
    match what {
        "alone" => steps(&places, number.unwrap_or(4000)),
        _ => growth(&places, number.unwrap_or(51)),
    }
}

fn main() -> ExitCode {
    let words: Vec<String> = std::env::args().skip(1).collect();
    let words: Vec<&str> = words.iter().map(String::as_str).collect();
    let number = words.get(2).map(|word| word.parse().unwrap_or(0));
    match (&words[..], number) {
        (
            [folder, what @ ("alone" | "growth")] | [folder, what @ ("alone" | "growth"), _],
            None | Some(1..),
        ) => ended(measure(folder, what, number)),
        _ => {
            eprintln!("runs: usage: runs alone [ROUNDS] | runs growth [TURNS]");
            ExitCode::from(2)
        }
    }
}
