//! Rounds by the port's runs, as `rounds` has them by the loops in Rust. Each of its functions is compiled alone.

use crate::ported::{self, Answer, Left};
use crate::recipes::SLOTS;
use crate::rounds::{NO_RAN, digest, opaque};
use crate::steps::{FIRST, Ran, State, Step};

/// # Safety
/// There are `length` steps at `listing`. So it is with all rounds.
#[unsafe(no_mangle)]
pub unsafe extern "C" fn in_rounds(listing: *const Step, length: usize, pairs: usize) -> u64 {
    let State { mut d, mut a, flags } = FIRST;
    let mut one = Left { ran: NO_RAN, flags };
    let (mut other, (start, budget)) = (one, opaque());
    for _ in 0..pairs {
        // SAFETY: the pointers are to live values that don't overlap, and the port keeps none of them.
        unsafe {
            ported::step_lent_run_in(&mut one, listing, length, &mut d, &mut a, &other.flags, start, budget);
            ported::step_lent_run_in(&mut other, listing, length, &mut d, &mut a, &one.flags, start, budget);
        }
    }
    digest(other.ran.told(), &State { d, a, flags: other.flags })
}

/// The pairs of a run that is handed a state and answers with one.
fn handed_on(pairs: usize, run: impl Fn(&mut Answer, &State)) -> u64 {
    let Ran { end, next, steps, clocks } = NO_RAN;
    let mut one = Answer { end, state: FIRST, next, steps, clocks };
    let mut other = one;
    for _ in 0..pairs {
        run(&mut one, &other.state);
        run(&mut other, &one.state);
    }
    digest(other.ran().told(), &other.state)
}

/// # Safety
/// As above.
#[unsafe(no_mangle)]
pub unsafe extern "C" fn slice_rounds(listing: *const Step, length: usize, pairs: usize) -> u64 {
    let (start, budget) = opaque();
    // SAFETY: as above.
    handed_on(pairs, |answer, state| unsafe {
        ported::step_lent_run(answer, listing, length, state, start, budget)
    })
}

/// # Safety
/// As above; at most as many steps as an array has.
#[unsafe(no_mangle)]
pub unsafe extern "C" fn array_rounds(listing: *const Step, length: usize, pairs: usize) -> u64 {
    // SAFETY: as above.
    let listing = unsafe { std::slice::from_raw_parts(listing, length) };
    let array: [Step; SLOTS] = std::array::from_fn(|at| listing[at % length]);
    let (start, budget) = opaque();
    // SAFETY: as above.
    handed_on(pairs, |answer, state| unsafe {
        ported::step_runs_run_array(answer, &array, length, state, start, budget)
    })
}
