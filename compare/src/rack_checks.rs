//! The port's `rack` and `rack_run` held to `racks`: the racks of examples/racks.tsv, and racks at random. What of it was met is
//! counted.

use crate::c_functions::rack_run;
use crate::cases::Random;
use crate::check::Tally;
use crate::line_checks::line_at;
use crate::ported;
use crate::rack_examples::{Example, Set, examples};
use crate::racks::{Rack, Row, Words};
use crate::random_racks::{junk_set, junk_slot, random_rack, random_words};
use crate::recipes::{BOXES_MAX, SLOTS};
use crate::steps::{End, Fault, Flags, Ran, State, Step, Told};

fn by_rack(rack: &Rack) -> ((u64, usize), Rack) {
    let mut left = rack.clone();
    let Rack { listing, sets, starts, budget, slots } = &mut left;
    let told = ported::rack(listing, sets.lent_to_write(), starts.lent(), *budget, slots.lent_to_write());
    (told, left)
}

fn by_words(words: &Words) -> (Told, Words) {
    let mut left = words.clone();
    let Words { listing, d, a, flags, starts, budget, answers } = &mut left;
    let registers = [d.lent_to_write(), a.lent_to_write()];
    let (flags, answers) = (flags.lent_to_write(), answers.lent_to_write());
    let told = rack_run(listing, registers, flags, starts.lent(), *budget, answers);
    (told, left)
}

/// What is told, the rows, what lies behind them; and that listing and start places are only read. What is wanted.
fn compare_rack(rack: &Rack, tally: &mut Tally) -> ((u64, usize), Rack) {
    let (got, want) = (by_rack(rack), rack.wanted());
    tally.count(got == want, || {
        let sets = got.1.sets.against(&want.1.sets, "set");
        let slots = got.1.slots.against(&want.1.slots, "slot");
        format!("{}: number, boxes {:?}, wanted {:?}{sets}{slots}", rack.shown(), got.0, want.0)
    });
    want
}

/// The same in words.
fn compare_words(words: &Words, rack: &Rack, tally: &mut Tally) {
    let ((told, got), (want_told, want)) = (by_words(words), words.wanted(rack));
    tally.count(told == want_told && got == want, || {
        let registers = got.d.against(&want.d, "d") + &got.a.against(&want.a, "a");
        let rest = got.flags.against(&want.flags, "flags") + &got.answers.against(&want.answers, "answers");
        format!("{}: told {told:?}, wanted {want_told:?}{registers}{rest}", words.shown())
    });
}

/// Of each box the set that is left, and what is told.
type Boxes = Vec<(State, Told)>;

fn boxes_by_rack(rack: &Rack) -> Boxes {
    let (_, left) = by_rack(rack);
    left.sets.lent().iter().zip(left.slots.lent()).map(|(set, ran)| (*set, ran.told())).collect()
}

fn boxes_by_words(rack: &Rack) -> Boxes {
    let (_, Words { d, a, flags, answers, .. }) = by_words(&Words::of(rack, || 0));
    let eight = |row: &Row<u32>, i: usize| std::array::from_fn(|at| row.all[8 * i + at]);
    let set = |i: usize| State { d: eight(&d, i), a: eight(&a, i), flags: Flags::of(flags.all[i]) };
    let told = |i: usize| std::array::from_fn(|at| answers.all[8 * i + at]);
    (0..rack.sets.length).map(|i| (set(i), told(i))).collect()
}

/// A rack that is run by `run` with the budget `first`, and on from there with `second`: a box that was not trapped or refused is
/// the single run with both. How many boxes went on.
fn compare_parts(
    rack: &Rack,
    [first, second]: [u32; 2],
    run: fn(&Rack) -> Boxes,
    tally: &mut Tally,
) -> usize {
    let mut part = Rack { budget: first, ..rack.clone() };
    let halted = run(&part);
    for (i, (set, told)) in halted.iter().enumerate() {
        (part.sets.all[i], part.starts.all[i]) = (*set, told[3] as usize);
    }
    part.budget = second;
    let whole = Rack { budget: first + second, ..rack.clone() };
    let boxes = halted.iter().zip(run(&part)).zip(whole.singles(&rack.listing));
    let mut gone_on = 0;
    for (i, (((_, before), (set, mut told)), (state, ran))) in boxes.enumerate() {
        let [end, _, _, _, steps, clocks, ..] = *before;
        if end < 2 {
            gone_on += usize::from(end == 1 && told[4] > 0);
            (told[4], told[5]) = (told[4].wrapping_add(steps), told[5].wrapping_add(clocks));
            tally.count((set, told) == (state, ran.told()), || {
                format!("{}: box {i} halted after {first} and continued for {second}", rack.shown())
            });
        }
    }
    gone_on
}

fn state_of(set: &Set) -> State {
    State { d: set.d, a: set.a, flags: Flags::of(set.flags) }
}

fn set_of(state: &State) -> Set {
    Set { d: state.d, a: state.a, flags: state.flags.ccr() }
}

/// An example's step, with a line at random.
fn step_of([operation, size, kind, from, to]: [u8; 5], random: &mut Random) -> Step {
    let word = u64::from_le_bytes([operation, size, kind, from, to, random.bits() as u8, 0, 0]);
    let step = Step::named(word).filter(|step| step.word() == word);
    step.unwrap_or_else(|| panic!("examples/racks.tsv: no step: {word:x}"))
}

/// What an example tells of a box, and the line of the step at the place of its trap or refusal.
fn with_line([end, which, place, next, steps, clocks]: [u64; 6], listing: &[Step]) -> Told {
    let line = line_at(listing, [end, which, place, next, steps, clocks, 0, 0]);
    [end, which, place, next, steps, clocks, line, 0]
}

fn rack_of(example: &Example, random: &mut Random) -> Rack {
    let boxes = example.boxes.len();
    let mut rack = Rack {
        listing: example.steps.iter().map(|&numbers| step_of(numbers, random)).collect(),
        sets: Row::new(boxes, boxes, || junk_set(random)),
        starts: Row::new(example.starts, boxes, || random.bits() as usize),
        budget: example.budget,
        slots: Row::new(example.slots, boxes, || junk_slot(random)),
    };
    for (i, each) in example.boxes.iter().enumerate() {
        (rack.sets.all[i], rack.starts.all[i]) = (state_of(&each.set), each.start);
    }
    rack
}

/// The port and the reading do what the example says.
fn compare_example(example: &Example, random: &mut Random, tally: &mut Tally) {
    let rack = rack_of(example, random);
    let (told, left) = compare_rack(&rack, tally);
    compare_words(&Words::of(&rack, || random.bits()), &rack, tally);
    let boxes = left.sets.all.iter().zip(&left.slots.all);
    let same = example.boxes.iter().zip(boxes).all(|(each, (set, slot))| match each.left {
        Some((told, left)) => slot.told() == with_line(told, &rack.listing) && set_of(set) == left,
        None => set_of(set) == each.set,
    });
    tally.count(same && told == (example.number, example.run), || {
        format!("example \"{}\": the reading does otherwise", example.name)
    });
}

/// A random rack, the slots of its boxes as they are wanted, and how many boxes were halted and continued.
struct Seen<'a> {
    rack: &'a Rack,
    words: &'a Words,
    slots: &'a [Ran],
    gone_on: usize,
}

fn only<const N: usize>(faults: [bool; N], which: usize) -> bool {
    (0..N).all(|at| faults[at] == (at == which))
}

impl Seen<'_> {
    fn ended(&self, is: fn(End) -> bool) -> usize {
        self.slots.iter().filter(|slot| is(slot.end)).count()
    }

    /// Boxes that did something, behind one that was trapped or refused.
    fn behind(&self) -> usize {
        let ended = |slot: &&Ran| matches!(slot.end, End::Finished | End::Budget);
        self.slots.iter().skip_while(ended).skip(1).filter(|slot| slot.steps > 0).count()
    }

    fn is_run(&self) -> bool {
        !self.rack.faults().contains(&true)
    }

    fn is_run_in_words(&self) -> bool {
        !self.words.faults().contains(&true)
    }

    fn has(&self, sets: usize) -> bool {
        self.rack.sets.length == sets
    }

    /// So many words more than the boxes have.
    fn spare_words(&self) -> [i64; 3] {
        let Words { d, a, answers, flags, .. } = self.words;
        [d.length, a.length, answers.length].map(|words| words as i64 - 8 * flags.length as i64)
    }

    /// Refused for that row of words alone, which has less than a box too few.
    fn short(&self, which: usize) -> bool {
        only(self.words.faults(), 2 + which) && self.spare_words()[which] > -8
    }
}

/// What must be met, and how often a rack meets it.
type Kind = (&'static str, fn(&Seen) -> usize);

const KINDS: [(&str, &[Kind]); 3] = [("boxes", &BOXES), ("rack", &RACKS), ("rack_run", &IN_WORDS)];

const BOXES: [Kind; 9] = [
    ("finished", |seen| seen.ended(|end| end == End::Finished)),
    ("budget", |seen| seen.ended(|end| end == End::Budget)),
    ("trapped", |seen| seen.ended(|end| matches!(end, End::Trapped(..)))),
    ("trapped with a line", |seen| seen.ended(|end| matches!(end, End::Trapped(_, _, 1..)))),
    ("refused", |seen| {
        seen.ended(|end| matches!(end, End::Refused(fault, ..) if fault != Fault::StartPastEnd))
    }),
    ("refused with a line", |seen| seen.ended(|end| matches!(end, End::Refused(_, _, 1..)))),
    ("past the end", |seen| seen.ended(|end| matches!(end, End::Refused(Fault::StartPastEnd, ..)))),
    ("behind such a box", |seen| seen.behind()),
    ("continued", |seen| seen.gone_on),
];

const RACKS: [Kind; 8] = [
    ("none", |seen| usize::from(seen.is_run() && seen.has(0))),
    ("64", |seen| usize::from(seen.is_run() && seen.has(BOXES_MAX))),
    ("spare starts", |seen| usize::from(seen.is_run() && seen.rack.starts.length > seen.rack.sets.length)),
    ("spare slots", |seen| usize::from(seen.is_run() && seen.rack.slots.length > seen.rack.sets.length)),
    ("65", |seen| usize::from(only(seen.rack.faults(), 0) && seen.has(BOXES_MAX + 1))),
    ("more", |seen| usize::from(only(seen.rack.faults(), 0) && !seen.has(BOXES_MAX + 1))),
    ("few starts", |seen| usize::from(only(seen.rack.faults(), 1))),
    ("few slots", |seen| usize::from(only(seen.rack.faults(), 2))),
];

const IN_WORDS: [Kind; 9] = [
    ("64", |seen| usize::from(seen.is_run_in_words() && seen.has(BOXES_MAX))),
    ("spare words", |seen| {
        usize::from(seen.is_run_in_words() && seen.spare_words().iter().all(|&spare| spare > 0))
    }),
    ("cut listing", |seen| usize::from(seen.is_run_in_words() && seen.words.listing.len() > SLOTS)),
    ("65", |seen| usize::from(only(seen.words.faults(), 0) && seen.has(BOXES_MAX + 1))),
    ("more", |seen| usize::from(only(seen.words.faults(), 0) && !seen.has(BOXES_MAX + 1))),
    ("few starts", |seen| usize::from(only(seen.words.faults(), 1))),
    ("few words of d", |seen| usize::from(seen.short(0))),
    ("few words of a", |seen| usize::from(seen.short(1))),
    ("few words of answers", |seen| usize::from(seen.short(2))),
];

/// A rack that is run, halted and continued by both. How many boxes went on.
fn compare_halted(rack: &Rack, random: &mut Random, tally: &mut Tally) -> usize {
    let listing = rack.listing.iter().copied().take(SLOTS).collect();
    let rack = Rack { listing, ..rack.clone() };
    let first = random.below(12) as u32;
    let budgets = [first, random.pick(&[0, 1, 5, 300, u32::MAX - first])];
    let gone_on = [boxes_by_rack, boxes_by_words].map(|run| compare_parts(&rack, budgets, run, tally));
    gone_on[0].min(gone_on[1])
}

/// How often each of `KINDS` was met.
type Met = [Vec<usize>; KINDS.len()];

fn compare_random(random: &mut Random, met: &mut Met, tally: &mut Tally) {
    let rack = random_rack(random);
    let words = random_words(&rack, random);
    let ((number, boxes), left) = compare_rack(&rack, tally);
    compare_words(&words, &rack, tally);
    let gone_on = if number == 0 { compare_halted(&rack, random, tally) } else { 0 };
    let seen = Seen { rack: &rack, words: &words, slots: &left.slots.all[..boxes], gone_on };
    for ((_, kinds), met) in KINDS.iter().zip(met) {
        met.iter_mut().zip(*kinds).for_each(|(sum, (_, count))| *sum += count(&seen));
    }
}

/// Prints it; whether all were met.
fn all_met(met: &Met) -> bool {
    let mut all = true;
    for ((group, kinds), met) in KINDS.iter().zip(met) {
        let shown = kinds.iter().zip(met).map(|((name, _), count)| format!("{name} {count}"));
        println!("{group}: {}", shown.collect::<Vec<String>>().join(", "));
        for ((name, _), _) in kinds.iter().zip(met).filter(|(_, count)| **count == 0) {
            println!("NEVER MET: {group}: {name}");
            all = false;
        }
    }
    all
}

/// The examples and so many racks at random: how many answers differ, and whether all kinds were met.
pub fn compare(racks: u32, random: &mut Random) -> (u64, bool) {
    let mut tally = Tally::default();
    let mut met = KINDS.map(|(_, kinds)| vec![0; kinds.len()]);
    let examples = examples(concat!(env!("CARGO_MANIFEST_DIR"), "/../examples/racks.tsv"));
    examples.iter().for_each(|example| compare_example(example, random, &mut tally));
    (0..racks).for_each(|_| compare_random(random, &mut met, &mut tally));
    let met = all_met(&met);
    let (rows, cases, differing) = (examples.len(), tally.cases, tally.differing);
    println!(
        "total {rows} racks of examples/racks.tsv, {racks} at random, {cases} answers, {differing} differ"
    );
    (differing, met)
}
