//! Rounds of runs of one listing, to be measured: those by the crate's loop and by the tuned one. Each run starts at place 0
//! from what the last one left, and a digest tells what came of the last. They stand, with the port's, in the shared
//! objects that `places` opens, and so are called as C functions.
//!
//! An answer stays where the run wrote it, and what the next run needs of it is lent from there. A copy would cost some
//! nanoseconds: a processor waits where single bytes are written and read again as one word. So runs come in pairs, whose
//! two answers take turns.

use crate::machine::Machine;
use crate::steps::{End, FIRST, Ran, State, Step, Told, answered, registers};
use crate::tuned;
use std::hint::black_box;

/// What stands where an answer will.
pub const NO_RAN: Ran = Ran { end: End::Budget, next: 0, steps: 0, clocks: 0 };

/// All that was told of a run, and what it left.
pub fn digest(told: Told, state: &State) -> u64 {
    registers(answered(0, told), state)
}

/// Where a run starts, and its budget. The compiler doesn't see them, so that it makes no run for these numbers alone.
pub fn opaque() -> (usize, u32) {
    black_box((0, u32::MAX))
}

#[inline(never)]
fn through_crate(answer: &mut Ran, listing: &[Step], machine: &mut Machine, start: usize, budget: u32) {
    *answer = machine.run(listing, start, budget);
}

#[inline(never)]
fn by_hand(answer: &mut Ran, listing: &[Step], state: &mut State, start: usize, budget: u32) {
    *answer = tuned::run(listing, state, start, budget);
}

/// # Safety
/// There are `length` steps at `listing`. So it is with all rounds.
#[unsafe(no_mangle)]
pub unsafe extern "C" fn crate_rounds(listing: *const Step, length: usize, pairs: usize) -> u64 {
    // SAFETY: as above.
    let listing = unsafe { std::slice::from_raw_parts(listing, length) };
    let (mut machine, mut answer, (start, budget)) = (Machine::new(FIRST), NO_RAN, opaque());
    for _ in 1..2 * pairs {
        through_crate(&mut answer, listing, &mut machine, start, budget);
    }
    answer = machine.run_with_figures(listing, start, budget); // the last one, for its digest
    digest(answer.told(), &machine.state())
}

/// # Safety
/// As above.
#[unsafe(no_mangle)]
pub unsafe extern "C" fn tuned_rounds(listing: *const Step, length: usize, pairs: usize) -> u64 {
    // SAFETY: as above.
    let listing = unsafe { std::slice::from_raw_parts(listing, length) };
    let (mut state, mut answer, (start, budget)) = (FIRST, NO_RAN, opaque());
    for _ in 0..2 * pairs {
        by_hand(&mut answer, listing, &mut state, start, budget);
    }
    digest(answer.told(), &state)
}
