//! The lines of steps, by each way of the port to run a listing. Two listings that differ in lines alone run alike, and a trap or a
//! refusal tells the line of the step at its place. And words of any numbers: one that names no step stands for one that is refused,
//! with the word's line. What of it was met is counted.

use crate::c_functions::{listing_run, rack_run};
use crate::cases::Random;
use crate::check::Tally;
use crate::ported;
use crate::random_racks::{random_budget, random_listing, random_set, random_start};
use crate::recipes::SLOTS;
use crate::steps::{Flags, State, Step, TOLD, Told};
use crate::tuned;

/// A listing of at most `SLOTS` steps, and what it is run on.
struct Case {
    listing: Vec<Step>,
    state: State,
    start: usize,
    budget: u32,
}

/// What a run tells and leaves.
type Left = (Told, State);

/// Where the line stands in what is told.
const LINE: usize = 6;

fn in_words(listing: &[Step], state: &mut State, start: usize, budget: u32) -> Told {
    let words: Vec<u64> = listing.iter().map(Step::word).collect();
    listing_run(&words, state, start, budget)
}

fn in_array(listing: &[Step], state: &mut State, start: usize, budget: u32) -> Told {
    let blank = Step::of_word(0);
    let array: [Step; SLOTS] = std::array::from_fn(|at| *listing.get(at).unwrap_or(&blank));
    ported::run_array(&array, listing.len(), state, start, budget).told()
}

fn by_hand(listing: &[Step], state: &mut State, start: usize, budget: u32) -> Told {
    tuned::run(listing, state, start, budget).told()
}

type Way = fn(&[Step], &mut State, usize, u32) -> Told;

/// The reading's way, then the port's.
const WAYS: [(&str, Way); 6] = [
    ("tuned", by_hand),
    ("words", in_words),
    ("array", in_array),
    ("slice", |listing, state, start, budget| ported::run(listing, state, start, budget).told()),
    ("lent", |listing, state, start, budget| ported::run_in(listing, state, start, budget).told()),
    ("steps", |listing, state, start, budget| ported::by_steps(listing, state, start, budget).told()),
];

impl Case {
    fn new(random: &mut Random) -> Case {
        let mut listing = random_listing(random);
        listing.truncate(SLOTS);
        let start = random_start(listing.len(), random);
        Case { start, state: random_set(random), budget: random_budget(random), listing }
    }

    fn run(&self, listing: &[Step], way: Way) -> Left {
        let mut state = self.state;
        (way(listing, &mut state, self.start, self.budget), state)
    }

    fn shown(&self) -> String {
        let Case { listing, state, start, budget } = self;
        format!("{listing:?} from {start}, budget {budget}, on {state:x?}")
    }
}

/// The line that the end has by its place: that of the step there, if a step was trapped or refused.
pub fn line_at(listing: &[Step], [end, _, place, ..]: Told) -> u64 {
    listing.get(place as usize).filter(|_| end >= 2).map_or(0, |step| step.line.into())
}

fn with_line((mut told, state): Left, line: u64) -> Left {
    told[LINE] = line;
    (told, state)
}

/// The same listing with other lines.
fn relined(listing: &[Step], random: &mut Random) -> Vec<Step> {
    listing.iter().map(|step| Step { line: random.bits() as u8, ..*step }).collect()
}

/// Words with a bit changed here and there, and any numbers where they have no meaning.
fn spoilt(listing: &[Step], random: &mut Random) -> Vec<u64> {
    let words = listing.iter().map(|step| {
        let slip = if random.below(16) == 0 { 1 << random.below(40) } else { 0 };
        step.word() ^ slip | random.bits() << 48
    });
    words.collect()
}

/// A run of the words by `rack_run`, in a rack of one box.
fn by_rack(words: &[u64], case: &Case) -> Left {
    let State { mut d, mut a, flags } = case.state;
    let (mut flags, mut told) = ([flags.ccr()], [u64::MAX; TOLD]);
    rack_run(words, [&mut d, &mut a], &mut flags, &[case.start], case.budget, &mut told);
    (told, State { d, a, flags: Flags::of(flags[0]) })
}

/// What was wanted: of the listing, with other lines, and of spoilt words.
struct Seen<'a> {
    case: &'a Case,
    told: Told,
    other: Told,
    words: &'a [u64],
    of_words: Told,
}

impl Seen<'_> {
    fn has_line(&self, end: u64) -> bool {
        self.told[0] == end && self.told[LINE] > 0
    }

    /// Whether the step behind that of the end has another line.
    fn differs_behind(&self) -> bool {
        let [end, _, place, .., line, _] = self.told;
        let behind = self.case.listing.get((place as usize).saturating_add(1));
        end >= 2 && behind.is_some_and(|step| u64::from(step.line) != line)
    }

    /// Whether a word that names no step was refused, with a line.
    fn is_no_step(&self) -> bool {
        let [end, _, place, .., line, _] = self.of_words;
        let word = self.words.get(place as usize).filter(|_| end == 3 && line > 0);
        word.is_some_and(|&word| Step::named(word).is_none())
    }
}

/// What must be met.
type Kind = (&'static str, fn(&Seen) -> bool);

const KINDS: [Kind; 8] = [
    ("finished", |seen| seen.told[0] == 0),
    ("budget", |seen| seen.told[0] == 1),
    ("trapped, with a line", |seen| seen.has_line(2)),
    ("refused, with a line", |seen| seen.has_line(3)),
    ("past the end", |seen| seen.told[1] == 10),
    ("told another line", |seen| seen.told[LINE] != seen.other[LINE]),
    ("another line behind", |seen| seen.differs_behind()),
    ("no step, with a line", |seen| seen.is_no_step()),
];

/// By each way: with other lines all is alike but for the line, and each line is that at the place. What is wanted of both.
fn compare_lines(case: &Case, other: &[Step], tally: &mut Tally) -> [Told; 2] {
    let want = case.run(&case.listing, by_hand);
    let lines = [line_at(&case.listing, want.0), line_at(other, want.0)];
    let wanted = lines.map(|line| with_line(want, line));
    for (name, way) in WAYS {
        let got = [case.run(&case.listing, way), case.run(other, way)];
        tally.count(got == wanted, || {
            let [[told, other_told], [want, other_want]] = [got, wanted].map(|two| two.map(|(told, _)| told));
            let lines: Vec<u8> = other.iter().map(|step| step.line).collect();
            let shown = case.shown();
            format!("by {name} {told:?}, wanted {want:?}: {shown}\n  with the lines {lines:?}: {other_told:?}, wanted {other_want:?}")
        });
    }
    wanted.map(|(told, _)| told)
}

/// Words against the steps that they stand for. What is wanted.
fn compare_words(case: &Case, words: &[u64], tally: &mut Tally) -> Told {
    let steps: Vec<Step> = words.iter().map(|&word| Step::of_word(word)).collect();
    let want = case.run(&steps, by_hand);
    let mut state = case.state;
    let told = listing_run(words, &mut state, case.start, case.budget);
    tally.count((told, state) == want && by_rack(words, case) == want, || {
        format!("words {words:x?}: {told:?}, wanted {:?}: {}", want.0, case.shown())
    });
    want.0
}

fn compare_one(random: &mut Random, met: &mut [u64; KINDS.len()], tally: &mut Tally) {
    let case = Case::new(random);
    let (other, words) = (relined(&case.listing, random), spoilt(&case.listing, random));
    let [told, other] = compare_lines(&case, &other, tally);
    let of_words = compare_words(&case, &words, tally);
    let seen = Seen { case: &case, told, other, words: &words, of_words };
    met.iter_mut().zip(KINDS).for_each(|(sum, (_, is))| *sum += u64::from(is(&seen)));
}

/// So many listings at random: how many answers differ, and whether all kinds were met.
pub fn compare(listings: u32, random: &mut Random) -> (u64, bool) {
    let (mut tally, mut met) = (Tally::default(), [0; KINDS.len()]);
    (0..listings).for_each(|_| compare_one(random, &mut met, &mut tally));
    let shown = KINDS.iter().zip(met).map(|((name, _), count)| format!("{name} {count}"));
    println!("lines: {}", shown.collect::<Vec<String>>().join(", "));
    for ((name, _), _) in KINDS.iter().zip(met).filter(|(_, count)| *count == 0) {
        println!("NEVER MET: lines: {name}");
    }
    let Tally { cases, differing } = tally;
    println!(
        "total {listings} listings with other lines and in any words, {cases} answers, {differing} differ"
    );
    (differing, met.iter().all(|&count| count > 0))
}
