//! Racks: the examples of examples/racks.tsv, and random ones against single runs.

use gromavelush::*;

use crate::common::{Random, forms};
use crate::rack_examples::{Example, Set, examples};

/// A slot before a rack, and a spare start place.
const JUNK: u64 = 0xA5A5_A5A5_A5A5_A5A5;

/// A rack's rows, as `rack_run` takes them.
#[derive(Clone, PartialEq, Debug)]
struct Rows {
    d: Vec<u32>,
    a: Vec<u32>,
    flags: Vec<u8>,
    answers: Vec<u64>,
}

impl Rows {
    fn of(states: &[State], slots: usize) -> Rows {
        Rows {
            d: states.iter().flat_map(|state| state.d).collect(),
            a: states.iter().flat_map(|state| state.a).collect(),
            flags: states.iter().map(|state| state.flags.ccr()).collect(),
            answers: vec![JUNK; 8 * slots],
        }
    }

    fn run(&mut self, listing: &Listing, starts: &[usize], budget: u32) -> Result<usize, Refusal> {
        rack_run(
            listing.words(),
            &mut self.d,
            &mut self.a,
            &mut self.flags,
            starts,
            budget,
            &mut self.answers,
        )
    }

    /// What the boxes before a place are left with, by states and answers; all behind it as it was.
    fn left(&self, states: &[State], answers: &[[u64; 8]]) -> Rows {
        let mut left = Rows::of(states, 0);
        left.d.extend(&self.d[left.d.len()..]);
        left.a.extend(&self.a[left.a.len()..]);
        left.answers = answers.as_flattened().to_vec();
        left.answers.extend(&self.answers[8 * answers.len()..]);
        left
    }
}

fn told(ran: &Ran) -> [u64; 8] {
    let [end, which, place, line] = match ran.end {
        End::Finished => [0, 0, 0, 0],
        End::Budget => [1, 0, 0, 0],
        End::Trapped { class, place, line } => [2, 1 + class as u64, place as u64, line.into()],
        End::Refused { refusal, place, line } => [3, refusal.number().into(), place as u64, line.into()],
    };
    [end, which, place, ran.next as u64, ran.steps.into(), ran.clocks, line, 0]
}

// ---- the examples

fn state(set: &Set) -> State {
    State { d: set.d, a: set.a, flags: Flags::of(set.flags) }
}

fn listing(steps: &[[u8; 5]]) -> Listing {
    let word = |step: &[u8; 5]| step.iter().rev().fold(0, |word, &byte| word << 8 | u64::from(byte));
    let steps = steps.iter().map(|step| Step::try_from(word(step)).expect("a step"));
    Listing::new(&steps.collect::<Vec<_>>()).expect("a few steps")
}

/// By rows of numbers, and where there is a slot for each box by states.
fn try_example(example: &Example) {
    let Example { name, budget, slots, boxes, .. } = example;
    let before: Vec<State> = boxes.iter().map(|each| state(&each.set)).collect();
    let mut starts: Vec<usize> = boxes.iter().map(|each| each.start).collect();
    starts.resize(example.starts, JUNK as usize);
    let left = boxes.iter().filter_map(|each| each.left.as_ref());
    let (answers, after): (Vec<[u64; 8]>, Vec<State>) = left
        .map(|([end, which, place, next, steps, clocks], set)| {
            ([*end, *which, *place, *next, *steps, *clocks, 0, 0], state(set))
        })
        .unzip();
    let accepted = example.number == 0;
    let listing = listing(&example.steps);
    let mut rows = Rows::of(&before, *slots);
    let wanted = if accepted { rows.left(&after, &answers) } else { rows.clone() };
    let got = rows.run(&listing, &starts, *budget).map_err(|refusal| refusal.number().into());
    assert_eq!(got, if accepted { Ok(example.run) } else { Err(example.number) }, "{name}");
    assert_eq!(rows, wanted, "{name}");
    if *slots >= before.len() {
        let mut states = before.clone();
        let got = rack(&listing, &mut states, &starts, *budget);
        assert_eq!(states, if accepted { after } else { before }, "{name}");
        assert_eq!(got.ok().map(|ran| ran.iter().map(told).collect()), accepted.then_some(answers), "{name}");
    }
}

#[test]
fn the_examples() {
    for example in examples(concat!(env!("CARGO_MANIFEST_DIR"), "/../../examples/racks.tsv")) {
        try_example(&example);
    }
}

// ---- against single runs

fn some_listing(random: &mut Random) -> Listing {
    let forms = forms();
    let length = random.below(24);
    let some =
        |_| Step { size: random.pick(&Size::ALL), form: random.pick(&forms), line: random.bits() as u8 };
    Listing::new(&(0..length).map(some).collect::<Vec<_>>()).expect("a few steps")
}

/// Each box is its single run, whatever the others do; what is spare stays.
#[test]
fn each_box_is_its_single_run() {
    let mut random = Random(2);
    for _ in 0..1_000 {
        let listing = some_listing(&mut random);
        let sets = random.pick(&[0, 1, 2, 7, 63, 64]);
        let before: Vec<State> = (0..sets).map(|_| random.state()).collect();
        let spare = random.below(3) as usize;
        let starts: Vec<usize> =
            (0..sets + spare).map(|_| random.below(listing.steps().len() as u64 + 3) as usize).collect();
        let budget = random.pick(&[0, 1, 5, u32::MAX]);
        let mut after = before.clone();
        let single: Vec<Ran> = after
            .iter_mut()
            .zip(&starts)
            .map(|(state, &start)| run(&listing, state, start, budget))
            .collect();
        let mut states = before.clone();
        assert_eq!(rack(&listing, &mut states, &starts, budget).as_ref(), Ok(&single));
        assert_eq!(states, after);
        let mut rows = Rows::of(&before, sets + spare);
        rows.d.extend([7; 5]);
        let wanted = rows.left(&after, &single.iter().map(told).collect::<Vec<_>>());
        assert_eq!(rows.run(&listing, &starts, budget), Ok(sets));
        assert_eq!(rows, wanted);
    }
}

/// A trap, a spent budget, a word that names no step behind a step and at once, a start past the end.
#[test]
fn each_box_tells_its_line() {
    let words = [0x07_01_08_01_01_08, 0x08_01_00_02_01_1D, 0x09_01_00_00_01_0C, 0xFF_00_00_00_00_FF];
    let mut rows = Rows::of(&[State { d: [10, 5, 0, 0, 0, 0, 0, 0], ..State::default() }; 5], 5);
    let Rows { d, a, flags, answers } = &mut rows;
    assert_eq!(rack_run(&words, d, a, flags, &[0, 1, 2, 3, 5], 2, answers), Ok(5));
    let trapped = [2, 1, 1, 2, 2, 12, 8, 0];
    let spent = [1, 0, 0, 3, 2, 14, 0, 0];
    let refused = [3, 2, 3, 3, 1, 4, 0xFF, 0];
    let at_once = [3, 2, 3, 3, 0, 0, 0xFF, 0];
    let past = [3, 10, 5, 5, 0, 0, 0, 0];
    assert_eq!(answers[..], [trapped, spent, refused, at_once, past].concat());
}

/// More boxes than there may be, and each row one too short, or empty: refused, and nothing is written.
#[test]
fn too_many_or_too_short() {
    let listing = Listing::new(&[Step::new(Size::Long, Form::One(OneOp::Not, D(0)))]).expect("a step");
    let mut random = Random(15);
    for (boxes, short) in
        [(65, 0), (100, 0), (64, 1), (64, 2), (64, 3), (64, 4), (1, 1), (1, 2), (1, 3), (1, 4), (5, 4)]
    {
        let states: Vec<State> = (0..boxes).map(|_| random.state()).collect();
        let mut rows = Rows::of(&states, boxes);
        let mut starts = vec![0; boxes];
        match short {
            1 => rows.d.truncate(8 * boxes - 1),
            2 => rows.a.truncate(8 * boxes - 1),
            3 => rows.answers.truncate(8 * boxes - 1),
            4 => starts.truncate(boxes - 1),
            _ => {}
        }
        let before = rows.clone();
        assert_eq!(
            rows.run(&listing, &starts, 9),
            Err(Refusal::TooManyBoxes),
            "{boxes} boxes, row {short} too short"
        );
        assert_eq!(rows, before);
    }
}
