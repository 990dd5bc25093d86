//! What of the port's runs and single steps has no C function, and `run_array` to measure. It is called as the kit compiles
//! it: a struct goes by a pointer to it, the answer's first, but an answer of two plain values as C has it; a slice by its
//! pointer and its length. The layouts are those of `steps`; a digest of all answers tells if one is not.

use crate::recipes::SLOTS;
use crate::steps::{Class, End, Fault, Flags, Ran, State, Step};
use std::mem::MaybeUninit;

/// step::runs::Ran
#[repr(C)]
#[derive(Clone, Copy)]
pub struct Answer {
    pub end: End,
    pub state: State,
    pub next: usize,
    pub steps: u32,
    pub clocks: u64,
}

impl Answer {
    pub fn ran(&self) -> Ran {
        Ran { end: self.end, next: self.next, steps: self.steps, clocks: self.clocks }
    }
}

/// step::runs::Left
#[repr(C)]
#[derive(Clone, Copy)]
pub struct Left {
    pub ran: Ran,
    pub flags: Flags,
}

/// step::steps::Outcome
#[repr(u8)]
#[derive(Clone, Copy)]
#[allow(dead_code)] // made by the port
enum Outcome {
    Done,
    Trapped(Class),
    Refused(Fault),
}

/// step::lent::Told
#[repr(C)]
#[derive(Clone, Copy)]
struct Told {
    outcome: Outcome,
    clocks: u32,
}

/// A Result of how many boxes are run, and of step::racks::TooManyBoxes
#[repr(u8)]
#[derive(Clone, Copy)]
#[allow(dead_code)] // made by the port
enum Racked {
    Boxes(usize),
    TooManyBoxes,
}

unsafe extern "C" {
    pub fn step_runs_run_array(
        answer: *mut Answer,
        listing: *const [Step; SLOTS],
        count: usize,
        state: *const State,
        start: usize,
        budget: u32,
    );
    pub fn step_lent_run(
        answer: *mut Answer,
        listing: *const Step,
        length: usize,
        state: *const State,
        start: usize,
        budget: u32,
    );
    pub fn step_lent_run_in(
        answer: *mut Left,
        listing: *const Step,
        length: usize,
        d: *mut [u32; 8],
        a: *mut [u32; 8],
        flags: *const Flags,
        start: usize,
        budget: u32,
    );
    fn step_racks_rack(
        listing: *const Step,
        length: usize,
        sets: *mut State,
        boxes: usize,
        starts: *const usize,
        starts_length: usize,
        budget: u32,
        answers: *mut Ran,
        answers_length: usize,
    ) -> Racked;
    fn step_lent_perform_in(answer: *mut Told, state: *mut State, step: *const Step);
    fn step_lent_fetch(answer: *mut Step, listing: *const Step, length: usize, at: usize, other: *const Step);
    fn step_lent_store(listing: *mut Step, length: usize, at: usize, step: *const Step);
}

fn answered(state: &mut State, ask: impl FnOnce(*mut Answer, *const State)) -> Ran {
    let mut answer = MaybeUninit::uninit();
    ask(answer.as_mut_ptr(), state);
    // SAFETY: the port has written all of it.
    let answer: Answer = unsafe { answer.assume_init() };
    *state = answer.state;
    answer.ran()
}

pub fn run_array(listing: &[Step; SLOTS], count: usize, state: &mut State, start: usize, budget: u32) -> Ran {
    // SAFETY: the pointers are to live values, and the port keeps none of them.
    answered(state, |answer, state| unsafe {
        step_runs_run_array(answer, listing, count, state, start, budget)
    })
}

pub fn run(listing: &[Step], state: &mut State, start: usize, budget: u32) -> Ran {
    // SAFETY: as above.
    answered(state, |answer, state| unsafe {
        step_lent_run(answer, listing.as_ptr(), listing.len(), state, start, budget)
    })
}

pub fn run_in(listing: &[Step], state: &mut State, start: usize, budget: u32) -> Ran {
    let State { d, a, flags } = state;
    let mut left = MaybeUninit::uninit();
    // SAFETY: as above; the registers that are written overlap nothing.
    let left: Left = unsafe {
        step_lent_run_in(left.as_mut_ptr(), listing.as_ptr(), listing.len(), d, a, flags, start, budget);
        left.assume_init()
    };
    *flags = left.flags;
    left.ran
}

/// The refusal's number, and how many boxes were run.
pub fn rack(
    listing: &[Step],
    sets: &mut [State],
    starts: &[usize],
    budget: u32,
    answers: &mut [Ran],
) -> (u64, usize) {
    // SAFETY: as above; the rows that are written overlap nothing.
    let racked = unsafe {
        step_racks_rack(
            listing.as_ptr(),
            listing.len(),
            sets.as_mut_ptr(),
            sets.len(),
            starts.as_ptr(),
            starts.len(),
            budget,
            answers.as_mut_ptr(),
            answers.len(),
        )
    };
    match racked {
        Racked::Boxes(boxes) => (0, boxes),
        Racked::TooManyBoxes => (15, 0),
    }
}

/// The listing once more, written by `store` slot by slot.
pub fn stored(listing: &[Step]) -> Vec<Step> {
    let mut copy = vec![listing[0]; listing.len()];
    for (at, step) in listing.iter().enumerate() {
        // SAFETY: as above; nothing else holds `copy`.
        unsafe { step_lent_store(copy.as_mut_ptr(), copy.len(), at, step) };
    }
    copy
}

/// A run by single steps on a lent register set, with document 01's tests around them.
pub fn by_steps(listing: &[Step], state: &mut State, start: usize, budget: u32) -> Ran {
    let mut ran = Ran { end: End::Budget, next: start, steps: 0, clocks: 0 };
    if start > listing.len() {
        ran.end = End::Refused(Fault::StartPastEnd, start, 0);
        return ran;
    }
    loop {
        let at = ran.next;
        if at == listing.len() {
            ran.end = End::Finished;
            return ran;
        }
        if ran.steps == budget {
            return ran;
        }
        let (mut step, mut told) = (MaybeUninit::uninit(), MaybeUninit::uninit());
        // SAFETY: as above.
        let (Step { line, .. }, told): (Step, Told) = unsafe {
            step_lent_fetch(step.as_mut_ptr(), listing.as_ptr(), listing.len(), at, &listing[0]);
            step_lent_perform_in(told.as_mut_ptr(), state, step.as_ptr());
            (step.assume_init(), told.assume_init())
        };
        if let Outcome::Refused(fault) = told.outcome {
            ran.end = End::Refused(fault, at, line);
            return ran;
        }
        ran.next += 1;
        ran.steps += 1;
        ran.clocks += u64::from(told.clocks);
        if let Outcome::Trapped(class) = told.outcome {
            ran.end = End::Trapped(class, at, line);
            return ran;
        }
    }
}
