//! What runs by the library that ships cost: `listing_run` and `recipe_run` called from C, and the Rust package, against the
//! hand-tuned Rust loop on the same steps. All of them stand in each of the shared objects of a folder (src/places.rs).
//!
//!   shipped FOLDER [ROUNDS]   nanoseconds a step of 256 mixed steps, and of a recipe

use compare::places::{Ask, Place, costs, ended, mean, opened, spread};
use compare::recipes::{SLOTS, read, translate};
use compare::steps::{MIXED, Step, listing_of};
use std::process::ExitCode;

/// Every verb three times; after the last all flags are promised.
fn recipe() -> String {
    let lines = "clear\t0\nup\t0\nnot\t1\ncopy\t1\t0\nhalve\t1\nneg\t0\ndown\t1\nsub\t1\t0\nadd\t0\t1\n";
    format!("width\t4\n{}", lines.repeat(3))
}

/// Turns of which the best counts.
const TURNS: u32 = 31;

/// One of the library's calls: its name, what does it, and what only reads. `apart`: the rest of it is the run, and no more.
struct Call<'a> {
    name: &'a str,
    all: Ask<'a>,
    reading: Ask<'a>,
    apart: bool,
}

/// A row for each call on these steps: nanoseconds a step.
fn rows(places: &[Place], steps: &[Step], calls: &[Call], rounds: u32) -> Result<(), String> {
    let pairs = rounds.div_ceil(2) as usize;
    let mut asked = vec![Ask::new("tuned_rounds", steps)];
    asked.extend(calls.iter().map(|call| call.all));
    let all = costs(places, &asked, pairs, TURNS)?;
    let only_reading: Vec<Ask> = calls.iter().map(|call| call.reading).collect();
    let reading = costs(places, &only_reading, pairs, TURNS)?;
    let a_step = |places: &[f64]| places.iter().map(|ns| ns / steps.len() as f64).collect::<Vec<f64>>();
    let tuned = mean(&a_step(&all[0]));
    for ((call, all), reading) in calls.iter().zip(&all[1..]).zip(&reading) {
        let (all, reading) = (a_step(all), mean(&a_step(reading)));
        let (spread, all) = (spread(&all), mean(&all));
        let run = Some(all - reading).filter(|_| call.apart);
        let shown = |ns: Option<f64>| ns.map_or("-".into(), |ns| format!("{ns:.2}"));
        println!(
            "{}\t{}\t{all:.2}\t{spread}\t{reading:.2}\t{}\t{tuned:.2}\t{}\t{:.2}",
            call.name,
            steps.len(),
            shown(run),
            shown(run.map(|run| run / tuned)),
            all / tuned
        );
    }
    Ok(())
}

fn measure(folder: &str, rounds: u32) -> Result<(), String> {
    let (places, listing, text) = (opened(folder)?, listing_of(MIXED, 1), recipe());
    let text = text.as_bytes();
    let steps = read(text).and_then(|recipe| translate(&recipe, SLOTS)).map_err(|_| "no recipe")?;
    println!("ns a step, the mean of {} places; of a listing the run is all but the reading", places.len());
    println!("call\tsteps\tall\tleast-greatest\treading\trun\ttuned\trun/tuned\tall/tuned");
    let of_words = |name, all, reading| {
        let [all, reading] = [all, reading].map(|rounds| Ask::new(rounds, &listing));
        Call { name, all, reading, apart: true }
    };
    // `recipe_translate` also writes the words, which a run of a recipe doesn't.
    let of_text = |name, all| {
        let [all, reading] = [all, "c_translate_rounds"].map(|rounds| Ask::new(rounds, text));
        Call { name, all, reading, apart: false }
    };
    let mixed = [
        of_words("listing_run, from C", "c_run_rounds", "c_read_rounds"),
        of_words("run, from Rust", "rust_run_rounds", "rust_read_rounds"),
    ];
    let recipes = [
        of_text("recipe_run, from C", "c_recipe_rounds"),
        of_text("run_text, from Rust", "rust_recipe_rounds"),
    ];
    rows(&places, &listing, &mixed, rounds)?;
    rows(&places, &steps, &recipes, rounds)
}

fn main() -> ExitCode {
    let words: Vec<String> = std::env::args().skip(1).collect();
    let rounds = words.get(1).map_or(Some(1000), |word| word.parse().ok()).filter(|&rounds| rounds > 0);
    match (words.first(), rounds, words.len()) {
        (Some(folder), Some(rounds), 1 | 2) => ended(measure(folder, rounds)),
        _ => {
            eprintln!("runs: usage: runs shipped [ROUNDS]");
            ExitCode::from(2)
        }
    }
}
