//! Listings of steps, and runs with a budget.

use crate::limits::{MOST_STEPS, TOLD};
use crate::state::State;
use crate::step::Step;
use crate::sys;
use crate::types::{Refusal, other_version};
use std::error::Error;
use std::fmt::{self, Display, Formatter};

/// At most [`MOST_STEPS`] steps.
///
/// ```
/// use gromavelush::{D, Form, Listing, MOST_STEPS, OneOp, Size, Step};
///
/// let step = Step::new(Size::Long, Form::One(OneOp::Neg, D(0)));
/// assert_eq!(Listing::new(&[step; MOST_STEPS])?.steps().len(), MOST_STEPS);
/// assert!(Listing::new(&[step; MOST_STEPS + 1]).is_err());
/// # Ok::<(), gromavelush::TooLong>(())
/// ```
#[derive(Clone, PartialEq, Eq, Hash, Default, Debug)]
pub struct Listing {
    steps: Vec<Step>,
    /// The same steps as the library takes them.
    words: Vec<u64>,
}

/// More steps than a listing may have.
#[derive(Clone, Copy, PartialEq, Eq, Hash, Debug)]
pub struct TooLong {
    /// How many there were.
    pub steps: usize,
}

impl Display for TooLong {
    fn fmt(&self, f: &mut Formatter) -> fmt::Result {
        write!(f, "a listing has at most {MOST_STEPS} steps, and these are {}; make two of it", self.steps)
    }
}

impl Error for TooLong {}

impl Listing {
    /// A listing of those steps.
    pub fn new(steps: &[Step]) -> Result<Listing, TooLong> {
        if steps.len() > MOST_STEPS {
            return Err(TooLong { steps: steps.len() });
        }
        Ok(Listing { steps: steps.to_vec(), words: steps.iter().map(|step| step.word()).collect() })
    }

    /// The listing that the library wrote.
    pub(crate) fn written(words: &[u64]) -> Listing {
        Listing { steps: words.iter().map(|&word| Step::of(word)).collect(), words: words.to_vec() }
    }

    /// The steps.
    pub fn steps(&self) -> &[Step] {
        &self.steps
    }

    /// The same as words, for another language or a file.
    pub fn words(&self) -> &[u64] {
        &self.words
    }
}

/// The class of a CHK that trapped.
#[derive(Clone, Copy, PartialEq, Eq, Hash, Debug)]
pub enum Trap {
    /// The value is above the bound.
    Over,
    /// It is below 0, and value - bound doesn't fit 16 bits.
    Short,
    /// It is below 0.
    Below,
}

/// How a run ends.
#[derive(Clone, Copy, PartialEq, Eq, Hash, Debug)]
pub enum End {
    /// At the listing's end.
    Finished,
    /// The budget was spent before.
    Budget,
    /// A CHK trapped. It counts as a step, and the next place is after it.
    Trapped {
        /// Its class.
        class: Trap,
        /// Its place.
        place: usize,
        /// Its line.
        line: u8,
    },
    /// A step was refused. It doesn't count, and the next place is that step; with `StartPastEnd` the start place.
    Refused {
        /// Why.
        refusal: Refusal,
        /// Its place.
        place: usize,
        /// Its line; 0 with `StartPastEnd`.
        line: u8,
    },
}

/// What a run hands back beside the state.
#[derive(Clone, Copy, PartialEq, Eq, Hash, Debug)]
pub struct Ran {
    /// How it ended.
    pub end: End,
    /// The place to go on from.
    pub next: usize,
    /// The steps done.
    pub steps: u32,
    /// The sum of their clock figures.
    pub clocks: u64,
}

fn trap_of(class: u64) -> Trap {
    match class {
        1 => Trap::Over,
        2 => Trap::Short,
        3 => Trap::Below,
        _ => other_version("the trap", class),
    }
}

/// A line is one byte.
fn line_of(line: u64) -> u8 {
    u8::try_from(line).unwrap_or_else(|_| other_version("the line", line))
}

impl Ran {
    pub(crate) fn told([end, which, place, next, steps, clocks, line, _]: [u64; TOLD]) -> Ran {
        let place = place as usize;
        let line = line_of(line);
        let end = match end {
            0 => End::Finished,
            1 => End::Budget,
            2 => End::Trapped { class: trap_of(which), place, line },
            3 => End::Refused { refusal: Refusal::of(which), place, line },
            _ => other_version("the end", end),
        };
        Ran { end, next: next as usize, steps: steps as u32, clocks }
    }
}

/// Runs a listing on a state from a place, at most `budget` steps. A run can be continued from `next`: a run of j and
/// then k steps is one of j + k, if the first neither trapped nor was refused.
///
/// ```
/// use gromavelush::{D, End, Form, Listing, OneOp, Size, State, Step, TwoOp, run};
///
/// let long = |form| Step::new(Size::Long, form);
/// let listing = Listing::new(&[
///     long(Form::Two(TwoOp::Add, D(0), D(1))),
///     long(Form::One(OneOp::Neg, D(1))),
/// ])?;
/// let mut state = State { d: [1, 2, 0, 0, 0, 0, 0, 0], ..State::default() };
/// let first = run(&listing, &mut state, 0, 1);
/// assert_eq!((first.end, first.next, state.d[1]), (End::Budget, 1, 3));
/// let rest = run(&listing, &mut state, first.next, 100);
/// assert_eq!((rest.end, rest.steps, rest.clocks), (End::Finished, 1, 6));
/// assert_eq!(state.d[1], 0xFFFF_FFFD);
/// # Ok::<(), gromavelush::TooLong>(())
/// ```
pub fn run(listing: &Listing, state: &mut State, start: usize, budget: u32) -> Ran {
    run_words(&listing.words, state, start, budget)
}

/// Runs a listing of words that come from elsewhere. A longer one than [`MOST_STEPS`] is cut: it ends `Finished` there. A word
/// that names no step is refused with 2, and its line told.
///
/// ```
/// use gromavelush::{End, Refusal, State, run_words};
///
/// let ran = run_words(&[0x07_00_00_00_00_FF], &mut State::default(), 0, 1);
/// assert_eq!(ran.end, End::Refused { refusal: Refusal::NoSuchSize, place: 0, line: 7 });
/// ```
pub fn run_words(words: &[u64], state: &mut State, start: usize, budget: u32) -> Ran {
    Ran::told(state.lent(|registers| sys::listing_run(words, registers, start, budget)))
}

#[cfg(test)]
mod tests {
    use super::*;
    use std::panic::catch_unwind;

    /// An end, a trap, a refusal and a line that there isn't.
    #[test]
    fn what_is_not_known_is_not_guessed() {
        for (end, which) in [(4, 0), (u64::MAX, 0), (2, 0), (2, 4), (3, 0), (3, 256 + 2), (3, u64::MAX)] {
            let told = [end, which, 0, 0, 0, 0, 0, 0];
            assert!(catch_unwind(|| Ran::told(told)).is_err(), "{told:?}");
        }
        for line in [256, u64::MAX] {
            let told = [2, 1, 0, 0, 0, 0, line, 0];
            assert!(catch_unwind(|| Ran::told(told)).is_err(), "{told:?}");
        }
    }
}
