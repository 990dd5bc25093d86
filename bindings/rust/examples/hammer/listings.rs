//! Listings of any words, some longer than a listing is run, from any place with any budget: run and printed.

use crate::cases::Random;
use crate::raw::{self, Registers, Row, TOLD, told_of};
use crate::recipes::SLOTS;
use crate::steps::{Adr, Bit, Count, Flags, Form, One, Quick, Register, Shift, Size, State, Step, Two};
use crate::steps::{MIXED, WILD, listing_of};
use crate::tally::Tally;
use crate::texts::LONGEST;
use crate::tuned;
use crate::written::{holds, safe_state, some_room, some_state};
use gromavelush as safe;

const TWO: [Two; 5] = [Two::Add, Two::Sub, Two::Cmp, Two::Addx, Two::Subx];
const ADR: [Adr; 3] = [Adr::Adda, Adr::Suba, Adr::Cmpa];
const QUICK: [Quick; 2] = [Quick::Addq, Quick::Subq];
const ONE: [One; 5] = [One::Clr, One::Neg, One::Negx, One::Not, One::Ext];
const SHIFT: [Shift; 8] =
    [Shift::Asl, Shift::Asr, Shift::Lsl, Shift::Lsr, Shift::Rol, Shift::Ror, Shift::Roxl, Shift::Roxr];
const BIT: [Bit; 4] = [Bit::Btst, Bit::Bset, Bit::Bclr, Bit::Bchg];

/// The header's layout, by the numbers of the operations there. None: the word names no form.
fn form_of(operation: u8, kind: u8, from: u8, to: u8) -> Option<Form> {
    let at = usize::from(operation);
    let count = match kind {
        1 => Some(Count::Small(from)),
        2 => Some(Count::Data(from)),
        _ => None,
    };
    match (operation, kind) {
        (0..=4, 2) => Some(Form::Two(TWO[at], from, to)),
        (5..=7, 2) => Some(Form::Address(ADR[at - 5], Register::Data(from), to)),
        (5..=7, 3) => Some(Form::Address(ADR[at - 5], Register::Address(from), to)),
        (8..=9, 1) => Some(Form::Quick(QUICK[at - 8], from, Register::Data(to))),
        (10..=11, 1) => Some(Form::Quick(QUICK[at - 10], from, Register::Address(to))),
        (12..=16, 0) => Some(Form::One(ONE[at - 12], to)),
        (17..=24, _) => Some(Form::Shift(SHIFT[at - 17], count?, to)),
        (25..=28, _) => Some(Form::Bit(BIT[at - 25], count?, to)),
        (29, 2) => Some(Form::Chk(from, to)),
        _ => None,
    }
}

/// Where a word names no step, one that is refused, with the word's line.
pub fn step_of(word: u64) -> Step {
    let [operation, size, kind, from, to, line, ..] = word.to_le_bytes();
    let size = [Size::Byte, Size::Word, Size::Long].get(usize::from(size)).copied();
    match (size, form_of(operation, kind, from, to)) {
        (Some(size), Some(form)) => Step { size, form, line },
        _ => Step { size: Size::Byte, form: Form::Chk(0, 0), line },
    }
}

/// Words of steps that are all done, of some that are refused or trap, with a byte changed here and there, or any. Their lines are
/// any.
pub fn some_words(random: &mut Random) -> Vec<u64> {
    let kinds = random.pick(&[MIXED, WILD]);
    let how = random.below(4);
    let seeds = [random.bits() as u32, random.bits() as u32];
    let steps = seeds.into_iter().flat_map(|seed| listing_of(kinds, seed));
    let length = match random.below(8) {
        0 => random.pick(&[0, 1, SLOTS - 1, SLOTS, SLOTS + 1, LONGEST]),
        _ => random.below(LONGEST + 1),
    };
    let words = steps.take(length).map(|step| {
        let word = Step { line: random.bits() as u8, ..step }.word();
        match random.below(64) {
            0 if how == 1 => word ^ 1 << random.below(40),
            1 if how == 1 => word & !(0xFF << 16) | random.bits() & 0xFF << 16,
            _ if how == 2 => word | random.bits() << 48,
            _ if how == 3 => random.bits() & 0xFF0F_1F03_031F,
            _ => word,
        }
    });
    words.collect()
}

pub fn told_of_safe(ran: &safe::Ran) -> [u64; TOLD] {
    let [end, which, place, line] = match ran.end {
        safe::End::Finished => [0, 0, 0, 0],
        safe::End::Budget => [1, 0, 0, 0],
        safe::End::Trapped { class, place, line } => [2, 1 + class as u64, place as u64, line.into()],
        safe::End::Refused { refusal, place, line } => {
            [3, refusal.number().into(), place as u64, line.into()]
        }
    };
    told_of(&[end, which, place, ran.next as u64, ran.steps.into(), ran.clocks, line])
}

pub fn some_start(random: &mut Random, length: usize) -> usize {
    match random.below(8) {
        0 => length,
        1 => random.pick(&[length + 1, SLOTS, SLOTS + 1, usize::MAX, 1 << 32]),
        2 => random.below(length + 1),
        3 => random.bits() as usize,
        _ => 0,
    }
}

pub fn some_budget(random: &mut Random) -> u32 {
    match random.below(4) {
        0 => random.below(12) as u32,
        1 => random.below(LONGEST) as u32,
        2 => random.bits() as u32,
        _ => u32::MAX,
    }
}

pub fn counted(should: [u64; TOLD], tally: &mut Tally) {
    tally.ended(should[0]);
    match should[0] {
        2 => tally.class(should[1]),
        3 => tally.refused(should[1]),
        _ => {}
    }
}

fn try_run(random: &mut Random, words: &Row<u64>, steps: &[Step], tally: &mut Tally) {
    let (start, budget) = (some_start(random, words.get().len()), some_budget(random));
    let before = some_state(random);
    let mut after = before;
    let should = told_of(&tuned::run(steps, &mut after, start, budget).told());
    let dirt = random.bits() as u8 & 0xE0;
    let mut on = Registers::of(&before.d, &before.a, &[before.flags.ccr() | dirt]);
    let raw::Told(told, whole) = raw::run(words, &mut on, start, budget);
    let left = (on.d.get(), on.a.get(), on.flags.get()) == (&after.d, &after.a, &[after.flags.ccr()]);
    tally.called("listing_run");
    counted(should, tally);
    tally.agrees(told == should && left && whole && on.is_intact() && words.is_intact(), || {
        format!("listing_run {:x?} from {start}, {budget}: {told:?}, wanted {should:?}", words.get())
    });
    try_safe_run(words.get(), &before, &after, (start, budget), should, tally);
}

/// By its words, and where the package takes the steps, as a listing.
fn try_safe_run(
    words: &[u64],
    before: &State,
    after: &State,
    (start, budget): (usize, u32),
    should: [u64; TOLD],
    tally: &mut Tally,
) {
    let mut agrees = |name: &str, ran: safe::Ran, state: safe::State| {
        tally.called("run, run_words");
        tally.agrees(told_of_safe(&ran) == should && state == safe_state(after), || {
            format!("{name} {words:x?} from {start}, {budget}: {ran:?}, wanted {should:?}")
        });
    };
    let mut state = safe_state(before);
    agrees("run_words", safe::run_words(words, &mut state, start, budget), state);
    let steps: Result<Vec<safe::Step>, safe::NoStep> = words.iter().map(|&word| word.try_into()).collect();
    if let Some(listing) = steps.ok().and_then(|steps| safe::Listing::new(&steps).ok()) {
        let mut state = safe_state(before);
        agrees("run", safe::run(&listing, &mut state, start, budget), state);
    }
}

fn register(register: Register) -> String {
    match register {
        Register::Data(number) => format!("D{number}"),
        Register::Address(number) => format!("A{number}"),
    }
}

fn count(count: Count) -> String {
    match count {
        Count::Small(number) => format!("#{number}"),
        Count::Data(number) => format!("D{number}"),
    }
}

/// Operation, source and destination.
fn fields(form: Form) -> (String, String, String) {
    let data = |number: u8| format!("D{number}");
    match form {
        Form::Two(op, from, to) => (format!("{op:?}"), data(from), data(to)),
        Form::Address(op, from, to) => (format!("{op:?}"), register(from), format!("A{to}")),
        Form::Quick(op, small, to) => (format!("{op:?}"), format!("#{small}"), register(to)),
        Form::One(op, to) => (format!("{op:?}"), "-".into(), data(to)),
        Form::Shift(op, by, to) => (format!("{op:?}"), count(by), data(to)),
        Form::Bit(op, bit, to) => (format!("{op:?}"), count(bit), data(to)),
        Form::Chk(from, to) => ("Chk".into(), data(from), data(to)),
    }
}

/// The figure of a step with all registers and flags 0; 0 where it is refused.
fn figure(step: &Step) -> u64 {
    let flags = Flags { x: false, n: false, z: false, v: false, c: false };
    let mut rest = State { d: [0; 8], a: [0; 8], flags };
    rest.step(step).map_or(0, u64::from)
}

fn printed(width: u8, steps: &[Step]) -> String {
    let mut text = format!("width\t{width}\t{}\n", steps.len());
    for (place, step) in steps.iter().enumerate() {
        let (operation, from, to) = fields(step.form);
        let size = ["B", "W", "L"][step.size as usize];
        text += &format!("{place}\t{}\t{size}\t{from}\t{to}\t{}\n", operation.to_uppercase(), step.line);
    }
    text + &format!("clocks\t{}\n", steps.iter().map(figure).sum::<u64>())
}

fn try_print(random: &mut Random, words: &Row<u64>, steps: &[Step], tally: &mut Tally) {
    let width = random.bits() as u8;
    let want = printed(width, steps);
    let mark = random.bits() as u8 | 0x80;
    let mut out = Row::marked(some_room(random, want.len()), mark);
    let wrote = raw::print(width, words, &mut out);
    tally.called("listing_print");
    tally.agrees(holds(&out, wrote, &want, mark), || {
        format!("listing_print {width} {:x?}: {:?}", words.get(), String::from_utf8_lossy(out.get()))
    });
    let named: Result<Vec<safe::Step>, safe::NoStep> =
        words.get().iter().map(|&word| word.try_into()).collect();
    if let Some(listing) = named.ok().and_then(|steps| safe::Listing::new(&steps).ok()) {
        let got = safe::print(width, &listing);
        tally.called("print");
        tally.agrees(got == want, || format!("print {width} {:x?}: {got:?}", words.get()));
    }
}

/// A word is a step of the package exactly if it is a step's word; it has the same line then.
fn try_words(words: &[u64], tally: &mut Tally) {
    for &word in words.iter().take(8) {
        let step = step_of(word);
        let want = (step.word() == word).then_some((word, step.line));
        let got = safe::Step::try_from(word);
        tally.agrees(got.ok().map(|step| (step.word(), step.line)) == want, || {
            format!("Step::try_from({word:x}): {got:?}")
        });
    }
}

pub fn try_one(random: &mut Random, tally: &mut Tally) {
    let words = Row::of(&some_words(random), 0xA5A5_A5A5_A5A5_A5A5);
    let steps: Vec<Step> = words.get().iter().take(SLOTS).map(|&word| step_of(word)).collect();
    try_words(words.get(), tally);
    try_run(random, &words, &steps, tally);
    if random.below(4) == 0 {
        try_print(random, &words, &steps, tally);
    }
}
