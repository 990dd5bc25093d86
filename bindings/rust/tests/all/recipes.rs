//! Recipes against what the reading of document 01 in Python says of them: random ones, all verbs, all widths.
//! tools/recipe-vectors makes them, and has the form of a vector; it wants python3.

use gromavelush::*;
use std::collections::HashSet;
use std::process::Command;

const TOOL: &str = concat!(env!("CARGO_MANIFEST_DIR"), "/../../tools/recipe-vectors");

/// X, N, Z, V and C.
const ALL_FLAGS: u32 = 31;

/// How a run stands at a place: the data registers, the flags, and which of them are promised; the others are 0.
struct Standing {
    d: [u32; 8],
    flags: u32,
    promised: u32,
}

struct Vector {
    text: Vec<u8>,
    before: State,
    after: Standing,
    steps: u32,
    clocks: u64,
    middle: u32,
    there: Standing,
}

fn standing(mut field: impl FnMut() -> u32) -> Standing {
    Standing { d: [0; 8].map(|_| field()), flags: field(), promised: field() }
}

/// The first vector, and what is behind it.
fn first_of(bytes: &[u8]) -> (Vector, &[u8]) {
    let end = bytes.iter().position(|&byte| byte == b'\n').expect("a line end");
    let mut fields = bytes[..end].split(|&byte| byte == b'\t');
    let mut field = || {
        let digits = String::from_utf8_lossy(fields.next().expect("a field more"));
        u32::from_str_radix(&digits, 16).expect("a number")
    };
    let (text, rest) = bytes[end + 1..].split_at(field() as usize);
    let flags = Flags::of(field() as u8);
    let before = State { d: [0; 8].map(|_| field()), a: [0; 8].map(|_| field()), flags };
    let after = standing(&mut field);
    let (steps, clocks, middle) = (field(), field().into(), field());
    let there = standing(&mut field);
    assert_eq!(fields.next(), None, "a field too many");
    (Vector { text: text.to_vec(), before, after, steps, clocks, middle, there }, rest)
}

fn vectors(count: usize, seed: u32) -> Vec<Vector> {
    let ran = Command::new("python3").args([TOOL, &count.to_string(), &seed.to_string()]).output();
    let output = ran.unwrap_or_else(|error| panic!("python3, which makes the vectors, did not run: {error}"));
    assert!(output.status.success(), "{TOOL} failed: {}", String::from_utf8_lossy(&output.stderr));
    let (mut left, mut found) = (&output.stdout[..], vec![]);
    while !left.is_empty() {
        let (vector, rest) = first_of(left);
        found.push(vector);
        left = rest;
    }
    assert_eq!(found.len(), count, "{TOOL}");
    found
}

impl Vector {
    /// Whether a state is this one, as far as its flags are promised. The address registers stay.
    fn reaches(&self, state: &State, standing: &Standing) -> bool {
        let flags = u32::from(state.flags.ccr()) & standing.promised;
        (state.d, state.a, flags) == (standing.d, self.before.a, standing.flags)
    }

    /// The text by one call.
    fn run_whole(&self) {
        let Vector { before, after, steps, clocks, .. } = self;
        let mut state = *before;
        let ran = run_text(&self.text, &mut state).expect("it is sound");
        let flags = Flags::of(after.flags as u8);
        let told = (after.promised == ALL_FLAGS).then_some(flags);
        assert_eq!(ran, RecipeRun { x: flags.x, flags: told, steps: *steps, clocks: *clocks });
        assert_eq!(state, State { d: after.d, a: before.a, flags });
    }

    /// Its recipe, made by hand of the fields.
    fn recipe(&self) -> Recipe {
        let text = String::from_utf8_lossy(&self.text);
        let mut lines = text.lines().map(|line| line.split('\t').collect::<Vec<&str>>());
        let number =
            |fields: &[&str], at: usize| fields.get(at).map_or(0, |field| field.parse().expect("a digit"));
        let width = number(&lines.next().expect("a width line"), 1);
        let line = |fields: Vec<&str>| {
            let verb = Verb::ALL.into_iter().find(|verb| verb.to_string() == fields[0]).expect("a verb");
            Line { verb, a: number(&fields, 1), b: number(&fields, 2) }
        };
        Recipe { width, lines: lines.map(line).collect() }
    }

    /// Its listing, and the same halted in the middle and continued.
    fn run_listing(&self, recipe: &Recipe) {
        let Vector { before, steps, clocks, middle, .. } = self;
        let listing = translate(&self.text).expect("it is sound");
        assert!(listing.words().iter().copied().eq(listing.steps().iter().map(|step| step.word())));
        let (mut whole, mut halted) = (*before, *before);
        let ran = run(&listing, &mut whole, 0, u32::MAX);
        let next = listing.steps().len();
        assert_eq!(ran, Ran { end: End::Finished, next, steps: *steps, clocks: *clocks });
        assert!(self.reaches(&whole, &self.after), "{recipe}on {before:x?}: {whole:x?}");
        let first = run(&listing, &mut halted, 0, *middle);
        let end = if middle == steps { End::Finished } else { End::Budget };
        assert_eq!((first.end, first.next, first.steps), (end, *middle as usize, *middle));
        assert!(self.reaches(&halted, &self.there), "{recipe}on {before:x?}, {middle} steps: {halted:x?}");
        let rest = run(&listing, &mut halted, first.next, u32::MAX);
        let sums = (first.steps + rest.steps, first.clocks + rest.clocks);
        assert_eq!((rest.end, sums, halted), (End::Finished, (*steps, *clocks), whole));
    }
}

#[test]
fn recipes_do_what_the_reading_in_python_says() {
    let mut met = HashSet::new();
    for vector in vectors(10_000, 20) {
        let recipe = vector.recipe();
        assert_eq!(recipe.to_string().as_bytes(), vector.text);
        vector.run_whole();
        vector.run_listing(&recipe);
        met.extend(recipe.lines.iter().map(|line| (line.verb, recipe.width)));
    }
    assert_eq!(met.len(), Verb::ALL.len() * [1, 2, 4].len(), "each verb at each width");
}

#[test]
fn numbers_of_a_state() {
    let mut state = State { d: [1, 2, 3, 4, 5, 6, 7, 8], ..State::default() };
    assert_eq!(state.number(1, 7), Some(8));
    assert_eq!(state.number(2, 3), Some(8 << 32 | 7));
    assert_eq!(state.number(4, 1), Some(8 << 96 | 7 << 64 | 6 << 32 | 5));
    for (width, k) in [(0, 0), (1, 8), (2, 4), (3, 0), (4, 2), (8, 0), (255, 255)] {
        assert_eq!(state.number(width, k), None);
        assert_eq!(state.set_number(width, k, 0), Err(NotSet::NoSuchNumber));
    }
    assert_eq!(state.set_number(1, 0, 1 << 32), Err(NotSet::TooLarge));
    assert_eq!(state.set_number(2, 0, 1 << 64), Err(NotSet::TooLarge));
    assert_eq!(state.d, [1, 2, 3, 4, 5, 6, 7, 8]);
    assert_eq!(state.set_number(4, 1, u128::MAX - 1), Ok(()));
    assert_eq!(state.d, [1, 2, 3, 4, u32::MAX - 1, u32::MAX, u32::MAX, u32::MAX]);
}
