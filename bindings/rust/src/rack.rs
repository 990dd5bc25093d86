//! One listing on a rack of boxes.

use crate::limits::TOLD;
use crate::listing::{Listing, Ran};
use crate::state::State;
use crate::sys;
use crate::types::{Flags, Refusal};

/// Runs a listing on each state, from its own start place and with the whole budget: each ends as [`run`](crate::run) leaves it,
/// and so is what is answered of it. A trap or a refusal in one box has no effect on the others. More than
/// [`MOST_BOXES`](crate::MOST_BOXES) states, or fewer start places than states, are refused, and nothing changes; spare start
/// places are not read.
///
/// ```
/// use gromavelush::{End, Refusal, State, rack, translate};
///
/// let listing = translate(b"width\t2\nadd\t0\t1\n")?;
/// let mut states = [State::default(); 3];
/// for (k, state) in (1..).zip(&mut states) {
///     state.set_number(2, 0, k)?;
///     state.set_number(2, 1, 0xFFFF_FFFF)?;
/// }
/// let answers = rack(&listing, &mut states, &[0, 0, 3], 100)?;
/// assert_eq!(states.map(|state| state.number(2, 1)), [0x1_0000_0000, 0x1_0000_0001, 0xFFFF_FFFF].map(Some));
/// assert_eq!(answers[1].end, End::Finished);
/// assert_eq!(answers[2].end, End::Refused { refusal: Refusal::StartPastEnd, place: 3, line: 0 });
/// assert_eq!(rack(&listing, &mut states, &[0, 0], 100), Err(Refusal::TooManyBoxes));
/// # Ok::<(), Box<dyn std::error::Error>>(())
/// ```
pub fn rack(
    listing: &Listing,
    states: &mut [State],
    starts: &[usize],
    budget: u32,
) -> Result<Vec<Ran>, Refusal> {
    let mut d: Vec<u32> = states.iter().flat_map(|state| state.d).collect();
    let mut a: Vec<u32> = states.iter().flat_map(|state| state.a).collect();
    let mut flags: Vec<u8> = states.iter().map(|state| state.flags.ccr()).collect();
    let mut answers = vec![[0; TOLD]; states.len()];
    rack_run(listing.words(), &mut d, &mut a, &mut flags, starts, budget, answers.as_flattened_mut())?;
    let registers = d.chunks_exact(8).zip(a.chunks_exact(8)).zip(flags);
    for (state, ((d, a), flags)) in states.iter_mut().zip(registers) {
        state.d.copy_from_slice(d);
        state.a.copy_from_slice(a);
        state.flags = Flags::of(flags);
    }
    Ok(answers.into_iter().map(Ran::told).collect())
}

/// The same over rows of numbers, as the library takes them: as many boxes as there are flags, and of each eight words of `d`,
/// of `a` and of `answers`: 0 Finished, 1 Budget, 2 Trapped or 3 Refused; a trap's class or a refusal's number; its place; the
/// next place; the steps; the clocks; the line of the step that trapped or was refused; 0. What lies behind the boxes' words
/// stays. Answers how many boxes were run. A row that is too short is refused too, and then nothing is written. Words are taken
/// as [`run_words`](crate::run_words) takes them.
///
/// ```
/// use gromavelush::{Refusal, rack_run};
///
/// let (mut d, mut a, mut flags, mut answers) = ([0; 16], [0; 16], [0; 2], [7; 17]);
/// assert_eq!(rack_run(&[], &mut d, &mut a, &mut flags, &[0, 0], 1, &mut answers), Ok(2));
/// assert_eq!((answers[8], answers[16]), (0, 7));
/// assert_eq!(
///     rack_run(&[], &mut d, &mut a[..15], &mut flags, &[0, 0], 1, &mut answers),
///     Err(Refusal::TooManyBoxes)
/// );
/// ```
pub fn rack_run(
    words: &[u64],
    d: &mut [u32],
    a: &mut [u32],
    flags: &mut [u8],
    starts: &[usize],
    budget: u32,
    answers: &mut [u64],
) -> Result<usize, Refusal> {
    let [number, boxes, ..] = sys::rack_run(words, sys::Rows { d, a, flags, answers }, starts, budget);
    match Refusal::told(number) {
        None => Ok(boxes as usize),
        Some(refusal) => Err(refusal),
    }
}
