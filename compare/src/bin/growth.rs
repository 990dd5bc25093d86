//! How a recipe's cost grows with its lines: the port's reading, translating and answering (read, translated and printed)
//! against those of src/recipes.rs. Nanoseconds a text and a line, at each width.
//!
//!   growth [TURNS]   the best of so many turns, port and reading in turn

use compare::c_functions::recipe_answer;
use compare::ported_recipes as ported;
use compare::recipes::{LINES_MAX, PRINT_MAX, SLOTS, VERBS, WIDTHS, answer, read, translate};
use compare::timing::{Way, best};
use std::cell::RefCell;
use std::hint::black_box;
use std::process::ExitCode;

const LINES: [usize; 7] = [0, 1, 2, 4, 8, 16, LINES_MAX];

/// A text whose lines have the verbs in turn, from the one numbered `first` on.
fn text(width: u8, lines: usize, first: usize) -> Vec<u8> {
    let numbers = usize::from(8 / width);
    let mut text = format!("width\t{width}\n");
    for at in 0..lines {
        let (_, word, takes) = VERBS[(first + at) % VERBS.len()];
        let (a, b) = (at % numbers, (at + 1) % numbers);
        text += &if takes == 2 { format!("{word}\t{a}\t{b}\n") } else { format!("{word}\t{a}\n") };
    }
    text.into_bytes()
}

/// Texts of so many lines, one for each verb to begin with: together they have every verb as often in every line.
fn texts(width: u8, lines: usize) -> Vec<Vec<u8>> {
    (0..VERBS.len()).map(|first| text(width, lines, first)).collect()
}

/// Whether each is a recipe of so many lines, of which port and reading print the same.
fn agree(texts: &[Vec<u8>], lines: usize) -> bool {
    let mut out = vec![0; PRINT_MAX];
    texts.iter().all(|text| {
        let length = recipe_answer(text, &mut out);
        out[..length] == *answer(text).as_bytes() && read(text).is_ok_and(|recipe| recipe.count == lines)
    })
}

/// Nanoseconds of the port and of the reading.
type Costs = [f64; 2];

/// Texts, or recipes, of as many lines, and how often each is taken in a turn: a turn is short, since other work on the
/// machine spoils a long one.
struct Load<T> {
    of: Vec<T>,
    times: usize,
}

impl<T> Load<T> {
    fn new(of: Vec<T>, lines: usize) -> Load<T> {
        Load { of, times: 200 / (lines + 1) }
    }

    /// One turn, and the sum of what came of it: lines, steps or bytes.
    fn turn(&self, mut take: impl FnMut(&T) -> usize) -> u64 {
        (0..self.times).flat_map(|_| &self.of).map(|one| take(black_box(one)) as u64).sum()
    }

    /// Nanoseconds of one, by port and reading.
    fn costs(&self, turns: u32, port: Way, reading: Way) -> Option<Costs> {
        let seconds = best(turns, &[port, reading])?;
        Some([0, 1].map(|at| seconds[at] / (self.times * self.of.len()) as f64 * 1e9))
    }
}

fn to_read(texts: &Load<Vec<u8>>, turns: u32) -> Option<Costs> {
    let port = || texts.turn(|text| black_box(ported::read(text)).1.count);
    let reading = || texts.turn(|text| black_box(read(text)).map_or(0, |recipe| recipe.count));
    texts.costs(turns, &port, &reading)
}

fn to_translate(texts: &Load<Vec<u8>>, turns: u32) -> Option<Costs> {
    let recipes = Load { of: texts.of.iter().flat_map(|text| read(text)).collect(), times: texts.times };
    let port = || recipes.turn(ported::steps_laid);
    let reading =
        || recipes.turn(|recipe| black_box(translate(recipe, SLOTS)).map_or(0, |steps| steps.len()));
    recipes.costs(turns, &port, &reading)
}

fn to_answer(texts: &Load<Vec<u8>>, turns: u32) -> Option<Costs> {
    let out = RefCell::new(vec![0; PRINT_MAX]);
    let port = || texts.turn(|text| recipe_answer(text, &mut out.borrow_mut()));
    let reading = || texts.turn(|text| black_box(answer(text)).len());
    texts.costs(turns, &port, &reading)
}

/// What is measured of texts.
type Measure = fn(&Load<Vec<u8>>, u32) -> Option<Costs>;

const MEASURES: [(&str, Measure); 3] =
    [("read", to_read), ("translate_array", to_translate), ("answer", to_answer)];

/// A row's fields: a text; a line; each line more than the row above has; the ratio.
fn row(lines: usize, now: Costs, before: Option<(usize, Costs)>) -> String {
    let line = |at: usize| Some(now[at] / lines as f64).filter(|_| lines > 0);
    let further = |at: usize| before.map(|(fewer, costs)| (now[at] - costs[at]) / (lines - fewer) as f64);
    let fields =
        [Some(now[0]), Some(now[1]), line(0), line(1), further(0), further(1), Some(now[0] / now[1])];
    fields.map(|field| field.map_or("-".into(), |ns| format!("{ns:.2}"))).join("\t")
}

/// The rows of one function at one width; false if port and reading differ.
fn rows(name: &str, measure: Measure, width: u8, turns: u32) -> bool {
    let mut before = None;
    for lines in LINES {
        let texts = Load::new(texts(width, lines), lines);
        let Some(now) = measure(&texts, turns).filter(|_| agree(&texts.of, lines)) else {
            println!("DIFFERS: {name}, width {width}, {lines} lines");
            return false;
        };
        println!("{name}\t{width}\t{lines}\t{}", row(lines, now, before));
        before = Some((lines, now));
    }
    true
}

fn growth(turns: u32) -> ExitCode {
    println!(
        "ns a text, a line, and each line more than the row above has; ratio of the port to the reading"
    );
    println!(
        "function\twidth\tlines\tport, a text\treading\tport, a line\treading\tport, a line more\treading\tport/reading"
    );
    let agree = MEASURES.iter().all(|&(name, measure)| WIDTHS.iter().all(|&w| rows(name, measure, w, turns)));
    if agree { ExitCode::SUCCESS } else { ExitCode::FAILURE }
}

fn main() -> ExitCode {
    let words: Vec<String> = std::env::args().skip(1).collect();
    let turns = words.first().map_or(Some(301), |word| word.parse().ok()).filter(|&turns| turns > 0);
    match (turns, words.len()) {
        (Some(turns), 0 | 1) => growth(turns),
        _ => {
            eprintln!("growth: usage: recipes growth [TURNS]");
            ExitCode::from(2)
        }
    }
}
