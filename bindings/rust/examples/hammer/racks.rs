//! Racks of any number of boxes, with rows too short and too long: each box against its single run by the reading.

use crate::cases::Random;
use crate::listings::{counted, some_budget, some_start, some_words, step_of, told_of_safe};
use crate::raw::{self, Rack, Registers, Row, TOLD, told_of};
use crate::recipes::{BOXES_MAX, SLOTS};
use crate::steps::{State, Step};
use crate::tally::Tally;
use crate::tuned;
use crate::written::{safe_state, some_state};
use gromavelush as safe;

const MARK: u64 = 0xA5A5_A5A5_A5A5_A5A5;

/// The rows as numbers: registers, flags and answers of all boxes, and what is spare.
#[derive(Clone, PartialEq)]
struct Rows {
    d: Vec<u32>,
    a: Vec<u32>,
    flags: Vec<u8>,
    answers: Vec<u64>,
}

/// Longer than wanted by some elements, or one too short.
fn some_length(random: &mut Random, wanted: usize) -> usize {
    match random.below(24) {
        0 => wanted.saturating_sub(1),
        1..4 => wanted + random.below(20),
        _ => wanted,
    }
}

fn some_boxes(random: &mut Random) -> usize {
    match random.below(8) {
        0 => random.pick(&[0, 1, BOXES_MAX - 1, BOXES_MAX, BOXES_MAX + 1, 100]),
        _ => random.below(6),
    }
}

fn some_rows(random: &mut Random, states: &[State]) -> Rows {
    let mut row = |elements: Vec<u32>| {
        let length = some_length(random, elements.len());
        elements.into_iter().chain(std::iter::repeat(0x0BAD_0BAD)).take(length).collect::<Vec<_>>()
    };
    let d = row(states.iter().flat_map(|state| state.d).collect());
    let a = row(states.iter().flat_map(|state| state.a).collect());
    let flags = states.iter().map(|state| state.flags.ccr()).collect();
    let length = some_length(random, TOLD * states.len());
    Rows { d, a, flags, answers: (0..length).map(|_| random.bits()).collect() }
}

/// Document 02: refused, or each box by itself.
fn wanted(
    steps: &[Step],
    states: &mut [State],
    starts: &[usize],
    budget: u32,
    rows: &Rows,
    tally: &mut Tally,
) -> ([u64; TOLD], Rows) {
    let (many, mut left) = (states.len(), rows.clone());
    let short = starts.len() < many
        || rows.d.len() < 8 * many
        || rows.a.len() < 8 * many
        || rows.answers.len() < 8 * many;
    if many > BOXES_MAX || short {
        return (told_of(&[15, 0]), left);
    }
    for (i, (state, &start)) in states.iter_mut().zip(starts).enumerate() {
        let told = told_of(&tuned::run(steps, state, start, budget).told());
        counted(told, tally);
        left.d[8 * i..][..8].copy_from_slice(&state.d);
        left.a[8 * i..][..8].copy_from_slice(&state.a);
        left.flags[i] = state.flags.ccr();
        left.answers[8 * i..][..8].copy_from_slice(&told);
    }
    (told_of(&[0, many as u64]), left)
}

/// The package's rack over states, where the answers have room: the same boxes.
fn try_safe(
    words: &[u64],
    before: &[State],
    starts: &[usize],
    budget: u32,
    refused: bool,
    left: &Rows,
    tally: &mut Tally,
) {
    let steps: Result<Vec<safe::Step>, safe::NoStep> = words.iter().map(|&word| word.try_into()).collect();
    let Some(listing) = steps.ok().and_then(|steps| safe::Listing::new(&steps).ok()) else { return };
    let untouched: Vec<safe::State> = before.iter().map(safe_state).collect();
    let mut states = untouched.clone();
    let got = safe::rack(&listing, &mut states, starts, budget);
    tally.called("rack, rack_run of the package");
    let too_many = before.len() > BOXES_MAX || starts.len() < before.len();
    let same = |(i, (ran, state)): (usize, (&safe::Ran, &safe::State))| {
        let registers = state.d == left.d[8 * i..][..8] && state.a == left.a[8 * i..][..8];
        told_of_safe(ran) == left.answers[8 * i..][..8] && registers && state.flags.ccr() == left.flags[i]
    };
    let agrees = match &got {
        Err(refusal) => too_many && refusal.number() == 15 && states == untouched,
        Ok(ran) => {
            !too_many
                && ran.len() == before.len()
                && (refused || ran.iter().zip(&states).enumerate().all(same))
        }
    };
    tally.agrees(agrees, || format!("rack of {} boxes of {words:x?}: {got:?}", before.len()));
}

pub fn try_one(random: &mut Random, tally: &mut Tally) {
    let words: Vec<u64> = some_words(random).into_iter().take(40).collect();
    let steps: Vec<Step> = words.iter().take(SLOTS).map(|&word| step_of(word)).collect();
    let boxes = some_boxes(random);
    let before: Vec<State> = (0..boxes).map(|_| some_state(random)).collect();
    let rows = some_rows(random, &before);
    let places = some_length(random, boxes);
    let starts: Vec<usize> = (0..places).map(|_| some_start(random, words.len())).collect();
    let budget = some_budget(random);
    let (should, left) = wanted(&steps, &mut before.clone(), &starts, budget, &rows, tally);
    let on = Registers::of(&rows.d, &rows.a, &rows.flags);
    let mut rack = Rack { on, answers: Row::of(&rows.answers, MARK) };
    let (listing, places) = (Row::of(&words, MARK), Row::of(&starts, MARK as usize));
    let raw::Told(told, whole) = raw::rack(&listing, &mut rack, &places, budget);
    tally.called("rack_run");
    tally.refused(should[0]);
    let intact = whole
        && rack.on.is_intact()
        && rack.answers.is_intact()
        && listing.get() == words
        && places.get() == starts;
    let [d, a] = [&rack.on.d, &rack.on.a].map(|row| row.get().to_vec());
    let got = Rows { d, a, flags: rack.on.flags.get().to_vec(), answers: rack.answers.get().to_vec() };
    tally.agrees(told == should && intact && got == left, || {
        format!(
            "rack_run of {boxes} boxes of {words:x?} from {starts:?}, {budget}: {told:?}, wanted {should:?}"
        )
    });
    try_safe(&words, &before, &starts, budget, should[0] != 0, &left, tally);
}
