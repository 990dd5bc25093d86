//! Runs: halted after every step and continued, budgets, traps of each class, lines.

use gromavelush::*;

use crate::common::{Random, forms};

fn word(form: Form) -> Step {
    Step::new(Size::Word, form)
}

/// A CHK of D1 against D0 in the middle of three steps, on such a value and bound.
fn checked(value: u16, bound: u16) -> (Ran, Ran, State) {
    let not = word(Form::One(OneOp::Not, D(2)));
    let listing = Listing::new(&[not, word(Form::Chk(D(0), D(1))), not]).expect("three steps");
    let mut state = State { d: [bound.into(), value.into(), 0, 0, 0, 0, 0, 0], ..State::default() };
    let first = run(&listing, &mut state, 0, 100);
    let rest = run(&listing, &mut state, first.next, 100);
    (first, rest, state)
}

#[test]
fn traps_of_each_class() {
    for (value, bound, class, figure) in
        [(6, 5, Trap::Over, 8), (0x8000, 1, Trap::Short, 8), (0x8000, 0, Trap::Below, 10)]
    {
        let (first, rest, state) = checked(value, bound);
        let end = End::Trapped { class, place: 1, line: 0 };
        assert_eq!(first, Ran { end, next: 2, steps: 2, clocks: 4 + figure });
        assert_eq!(rest, Ran { end: End::Finished, next: 3, steps: 1, clocks: 4 });
        assert_eq!(state.d[2], 0);
    }
    let (first, _, _) = checked(5, 5);
    assert_eq!(first, Ran { end: End::Finished, next: 3, steps: 3, clocks: 18 });
}

#[test]
fn a_trap_keeps_its_flags() {
    let listing = Listing::new(&[word(Form::Chk(D(0), D(1)))]).expect("a step");
    let mut state = State { d: [0, 0xFFFF, 0, 0, 0, 0, 0, 0], flags: Flags::of(31), ..State::default() };
    let ran = run(&listing, &mut state, 0, 1);
    assert_eq!(ran.end, End::Trapped { class: Trap::Below, place: 0, line: 0 });
    assert_eq!(state.flags.to_string(), "XN---");
}

#[test]
fn a_budget_of_nothing_does_nothing() {
    let listing = Listing::new(&[word(Form::One(OneOp::Not, D(2)))]).expect("a step");
    let mut state = State::default();
    let ran = run(&listing, &mut state, 0, 0);
    assert_eq!(ran, Ran { end: End::Budget, next: 0, steps: 0, clocks: 0 });
    assert_eq!(state, State::default());
    assert_eq!(run(&Listing::default(), &mut state, 0, 0).end, End::Finished);
}

fn some_listing(random: &mut Random) -> Listing {
    let forms = forms();
    let length = random.below(60) as usize;
    let mut some =
        || Step { size: random.pick(&Size::ALL), form: random.pick(&forms), line: random.bits() as u8 };
    let steps: Vec<Step> = (0..length).map(|_| some()).collect();
    Listing::new(&steps).expect("fewer than 60 steps")
}

/// A run of j and then k steps is one of j + k: for every j, on listings that also trap and are refused.
#[test]
fn halted_after_every_step_and_continued() {
    let mut random = Random(1979);
    for _ in 0..300 {
        let listing = some_listing(&mut random);
        let before = random.state();
        let mut after = before;
        let whole = run(&listing, &mut after, 0, u32::MAX);
        for budget in 0..=whole.steps {
            let mut state = before;
            let first = run(&listing, &mut state, 0, budget);
            assert_eq!((first.steps, first.next), (budget, budget as usize));
            let trapped = matches!(first.end, End::Trapped { .. });
            if trapped {
                assert_eq!((first, state), (whole, after));
                continue;
            }
            let rest = run(&listing, &mut state, first.next, u32::MAX);
            assert_eq!((rest.end, rest.next, state), (whole.end, whole.next, after));
            assert_eq!((first.steps + rest.steps, first.clocks + rest.clocks), (whole.steps, whole.clocks));
        }
    }
}

/// The same steps, all with that line.
fn with_line(listing: &Listing, line: u8) -> Listing {
    let steps: Vec<Step> = listing.steps().iter().map(|step| step.with_line(line)).collect();
    Listing::new(&steps).expect("as many steps")
}

/// An end without its line, and the place and the line that it has.
fn parted(end: End) -> (End, Option<(usize, u8)>) {
    match end {
        End::Trapped { class, place, line } => (End::Trapped { class, place, line: 0 }, Some((place, line))),
        End::Refused { refusal, place, line } => {
            (End::Refused { refusal, place, line: 0 }, Some((place, line)))
        }
        End::Finished | End::Budget => (end, None),
    }
}

/// Whatever the lines are, a run is the same but for the line that it tells: that of the step at the place.
#[test]
fn lines_change_nothing_but_what_is_told_of_them() {
    let mut random = Random(4);
    let mut told = 0;
    for _ in 0..2_000 {
        let listing = some_listing(&mut random);
        let start = random.below(listing.steps().len() as u64 + 2) as usize;
        let budget = random.pick(&[0, 3, u32::MAX]);
        let before = random.state();
        let mut plain = before;
        let by_hand = run(&with_line(&listing, 0), &mut plain, start, budget);
        for listing in [with_line(&listing, 1), with_line(&listing, 255), listing] {
            let mut state = before;
            let ran = run(&listing, &mut state, start, budget);
            let (end, line) = parted(ran.end);
            assert_eq!((Ran { end, ..ran }, state), (by_hand, plain));
            if let Some((place, line)) = line {
                assert_eq!(line, listing.steps().get(place).map_or(0, |step| step.line), "{listing:?}");
                told += 1;
            }
        }
    }
    assert!(told > 2_000, "{told}");
}

/// Each step with its line.
fn numbered(forms: &[(Size, Form)], lines: &[u8]) -> Listing {
    let steps: Vec<Step> =
        forms.iter().zip(lines).map(|(&(size, form), &line)| Step { size, form, line }).collect();
    Listing::new(&steps).expect("a few steps")
}

#[test]
fn a_trap_tells_its_line() {
    let forms = [
        (Size::Word, Form::Quick(QuickOp::Addq, 8, Register::Data(D(1)))),
        (Size::Word, Form::Chk(D(0), D(1))),
        (Size::Word, Form::One(OneOp::Clr, D(1))),
    ];
    let listing = numbered(&forms, &[7, 8, 9]);
    let mut state = State { d: [10, 5, 0, 0, 0, 0, 0, 0], ..State::default() };
    let before = state;
    let ran = run(&listing, &mut state, 0, 100);
    let end = End::Trapped { class: Trap::Over, place: 1, line: 8 };
    assert_eq!(ran, Ran { end, next: 2, steps: 2, clocks: 12 });
    assert_eq!(run(&listing, &mut before.clone(), 0, 1).end, End::Budget);
    let words = run_words(listing.words(), &mut before.clone(), 0, 100);
    assert_eq!(words, ran);
}

#[test]
fn a_refusal_tells_its_line() {
    let forms = [
        (Size::Long, Form::Two(TwoOp::Add, D(0), D(1))),
        (Size::Word, Form::Bit(BitOp::Bset, Count::Small(3), D(0))),
    ];
    for lines in [[7, 8], [0, 0], [255, 255]] {
        let listing = numbered(&forms, &lines);
        let mut state = State { d: [1, 0, 0, 0, 0, 0, 0, 0], ..State::default() };
        let ran = run(&listing, &mut state, 0, 100);
        let end = End::Refused { refusal: Refusal::NoSuchSize, place: 1, line: lines[1] };
        assert_eq!(ran, Ran { end, next: 1, steps: 1, clocks: 8 });
        assert_eq!(state, State { d: [1, 1, 0, 0, 0, 0, 0, 0], ..State::default() });
        let past = run(&listing, &mut state, 3, 100);
        let end = End::Refused { refusal: Refusal::StartPastEnd, place: 3, line: 0 };
        assert_eq!(past, Ran { end, next: 3, steps: 0, clocks: 0 });
    }
}

/// An ADD without a source, and the same with something in the reserved bytes.
#[test]
fn a_word_that_names_no_step_tells_its_line() {
    for word in [0x0000_0700_0000_0000, 0xABCD_0700_0000_0000] {
        let ran = run_words(&[word], &mut State::default(), 0, 9);
        assert_eq!(ran.end, End::Refused { refusal: Refusal::NoSuchSize, place: 0, line: 7 });
    }
}

/// A single operation with source and destination.
type Exec = fn(Size, u32, u32, Flags) -> Result<Answer, Refusal>;

/// The step does what its operation answers, with a figure of its own.
fn done(before: State, step: Step, answer: Answer, clocks: u32) {
    let mut state = before;
    let ran = run(&Listing::new(&[step]).expect("a step"), &mut state, 0, 1);
    let mask = u32::MAX >> (32 - step.size.bits());
    assert_eq!(state.d[1], before.d[1] & !mask | answer.result & mask);
    assert_eq!((state.flags, ran.clocks), (answer.flags, clocks.into()));
}

/// With the figure of the long step where the operation has 4.
const TWOS: [(TwoOp, Exec, u32); 5] = [
    (TwoOp::Add, exec_add, 8),
    (TwoOp::Sub, exec_sub, 8),
    (TwoOp::Cmp, exec_cmp, 6),
    (TwoOp::Addx, exec_addx, 8),
    (TwoOp::Subx, exec_subx, 8),
];

#[test]
fn a_step_is_its_operation() {
    let mut random = Random(7);
    for _ in 0..5_000 {
        let before = random.state();
        let (size, (op, exec, long)) = (random.pick(&Size::ALL), random.pick(&TWOS));
        let answer = exec(size, before.d[0], before.d[1], before.flags).expect("it has every size");
        assert_eq!(answer.clocks, 4);
        let step = Step::new(size, Form::Two(op, D(0), D(1)));
        done(before, step, answer, if size == Size::Long { long } else { 4 });
    }
}

/// By a small number and by a register, at each bit.
#[test]
fn bclr_counts_by_its_bit() {
    let mut random = Random(7);
    for number in 0..64 {
        let mut before = random.state();
        before.d[0] = before.d[0] / 64 * 64 + number;
        let answer = exec_bclr(Size::Long, number, before.d[1], before.flags).expect("it is long");
        assert_eq!(answer.clocks, 10);
        let counts = [Some(Count::Data(D(0))), (number < 32).then_some(Count::Small(number as u8))];
        for count in counts.into_iter().flatten() {
            let step = Step::new(Size::Long, Form::Bit(BitOp::Bclr, count, D(1)));
            done(before, step, answer, if number % 32 < 16 { 8 } else { 10 });
        }
    }
}
