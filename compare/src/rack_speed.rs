//! What a box costs in a rack, against the single runs that the rack stands for.

use crate::c_functions::{box_run, rack_run};
use crate::cases::Random;
use crate::ported;
use crate::random_racks::junk_set;
use crate::recipes::{BOXES_MAX, SLOTS};
use crate::steps::{End, Flags, MIXED, Ran, State, Step, answered, registers, steps_of};
use crate::timing::{Way, best};
use std::process::ExitCode;

/// Kinds of steps, and lengths of listings.
const KINDS: [(&str, u32); 2] = [("mixed", MIXED), ("ADD SUB CMP ADDX SUBX", 0)];
const LENGTHS: [usize; 5] = [1, 4, 8, 32, SLOTS];

/// Listings of each kind and length.
const LISTINGS: u32 = 4;

/// The ways to run them, in the order of the table.
const WAYS: [&str; 4] = ["rack", "run", "rack_run", "listing_run"];

/// The rows of a full rack, as records.
#[derive(Clone)]
struct Records {
    sets: [State; BOXES_MAX],
    slots: [Ran; BOXES_MAX],
}

/// The same as words, eight of each box.
struct Words {
    d: [[u32; 8]; BOXES_MAX],
    a: [[u32; 8]; BOXES_MAX],
    flags: [u8; BOXES_MAX],
    answers: [[u64; 8]; BOXES_MAX],
}

const STARTS: [usize; BOXES_MAX] = [0; BOXES_MAX];

impl Records {
    /// D7 is 8, so that every step is done.
    fn new(random: &mut Random) -> Records {
        let sets = std::array::from_fn(|_| {
            let mut set = junk_set(random);
            set.d[7] = 8;
            set
        });
        Records { sets, slots: [Ran { end: End::Budget, next: 0, steps: 0, clocks: 0 }; BOXES_MAX] }
    }

    fn in_words(&self) -> Words {
        Words {
            d: self.sets.map(|set| set.d),
            a: self.sets.map(|set| set.a),
            flags: self.sets.map(|set| set.flags.ccr()),
            answers: [[0; 8]; BOXES_MAX],
        }
    }

    fn digest(&self) -> u64 {
        let boxes = self.sets.iter().zip(&self.slots);
        boxes.fold(0, |sum, (set, slot)| registers(answered(sum, slot.told()), set))
    }
}

impl Words {
    fn digest(&self) -> u64 {
        (0..BOXES_MAX).fold(0, |sum, i| {
            let set = State { d: self.d[i], a: self.a[i], flags: Flags::of(self.flags[i]) };
            registers(answered(sum, self.answers[i]), &set)
        })
    }
}

/// So many racks, each from the sets that the last one left.
fn by_records(times: usize, rows: &Records, rack: impl Fn(&mut Records)) -> u64 {
    let mut rows = rows.clone();
    (0..times).for_each(|_| rack(&mut rows));
    rows.digest()
}

fn by_words(times: usize, rows: &Records, rack: impl Fn(&mut Words)) -> u64 {
    let mut rows = rows.in_words();
    (0..times).for_each(|_| rack(&mut rows));
    rows.digest()
}

fn runs(listing: &[Step], Records { sets, slots }: &mut Records) {
    for ((set, slot), &start) in sets.iter_mut().zip(slots).zip(&STARTS) {
        *slot = ported::run(listing, set, start, u32::MAX);
    }
}

fn listing_runs(listing: &[u64], Words { d, a, flags, answers }: &mut Words) {
    for i in 0..BOXES_MAX {
        answers[i] = box_run(listing, &mut d[i], &mut a[i], &mut flags[i], STARTS[i], u32::MAX);
    }
}

/// Nanoseconds a box of a listing by each of `WAYS`. A turn takes a millisecond or less.
fn box_costs(listing: &[Step], rows: &Records, turns: u32) -> Option<[f64; WAYS.len()]> {
    let times = (1 << 12) / (listing.len() + 16) + 1;
    let words: Vec<u64> = listing.iter().map(Step::word).collect();
    let ways: [Way; WAYS.len()] = [
        &|| {
            by_records(times, rows, |Records { sets, slots }| {
                ported::rack(listing, sets, &STARTS, u32::MAX, slots);
            })
        },
        &|| by_records(times, rows, |rows| runs(listing, rows)),
        &|| {
            by_words(times, rows, |Words { d, a, flags, answers }| {
                let registers = [d, a].map(|row| row.as_flattened_mut());
                rack_run(&words, registers, flags, &STARTS, u32::MAX, answers.as_flattened_mut());
            })
        },
        &|| by_words(times, rows, |rows| listing_runs(&words, rows)),
    ];
    let seconds = best(turns, &ways)?;
    Some(std::array::from_fn(|way| seconds[way] / (times * BOXES_MAX) as f64 * 1e9))
}

/// The mean of some listings.
fn mean_costs(kinds: u32, length: usize, turns: u32) -> Option<[f64; WAYS.len()]> {
    let rows = Records::new(&mut Random(1979));
    let mut sums = [0.0; WAYS.len()];
    for seed in 1..=LISTINGS {
        let listing: Vec<Step> = steps_of(kinds, seed.wrapping_mul(2_654_435_761)).take(length).collect();
        let costs = box_costs(&listing, &rows, turns)?;
        sums.iter_mut().zip(costs).for_each(|(sum, cost)| *sum += cost);
    }
    Some(sums.map(|sum| sum / f64::from(LISTINGS)))
}

/// A table of all listings; the greatest ratio of a rack to single runs last.
pub fn measure(turns: u32) -> ExitCode {
    println!("ns a box of {BOXES_MAX}: in a rack, and by as many single runs; ratios");
    println!("steps\tlength\t{}\track/run\track_run/listing_run", WAYS.join("\t"));
    let mut greatest = 0f64;
    for (name, kinds) in KINDS {
        for length in LENGTHS {
            let Some([rack, run, rack_run, listing_run]) = mean_costs(kinds, length, turns) else {
                println!("DIFFERS: {name}, {length} steps");
                return ExitCode::FAILURE;
            };
            let ratios = [rack / run, rack_run / listing_run];
            greatest = greatest.max(ratios[0]);
            println!(
                "{name}\t{length}\t{rack:.1}\t{run:.1}\t{rack_run:.1}\t{listing_run:.1}\t{:.3}\t{:.3}",
                ratios[0], ratios[1]
            );
        }
    }
    println!("greatest ratio of a box in a rack to a single run: {greatest:.3}");
    ExitCode::SUCCESS
}
