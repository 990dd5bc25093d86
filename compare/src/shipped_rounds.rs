//! Rounds by the library that ships: its functions, called from C by link/shipped.c and through the Rust package, as `rounds`
//! has them by the loops in Rust. A listing is handed over as words; of a recipe its text is.

use crate::recipes::SLOTS;
use crate::rounds::digest;
use crate::steps::{FIRST, Flags, State, Step};
use std::hint::black_box;

unsafe extern "C" {
    fn c_listing_run(
        times: usize,
        listing: *const u64,
        length: usize,
        d: &mut [u32; 8],
        a: &mut [u32; 8],
        flags: &mut u8,
        budget: u32,
        told: &mut [u64; 8],
    );
    fn c_recipe_run(
        times: usize,
        text: *const u8,
        length: usize,
        d: &mut [u32; 8],
        a: &mut [u32; 8],
        flags: &mut u8,
        told: &mut [u64; 8],
    );
    fn c_recipe_translate(
        times: usize,
        text: *const u8,
        length: usize,
        listing: *mut u64,
        slots: usize,
        told: &mut [u64; 8],
    );
}

/// # Safety
/// There are `length` steps at `listing`.
unsafe fn words(listing: *const Step, length: usize) -> Vec<u64> {
    // SAFETY: as above.
    unsafe { std::slice::from_raw_parts(listing, length) }.iter().map(Step::word).collect()
}

fn by_c(words: &[u64], pairs: usize, budget: u32) -> u64 {
    let (State { mut d, mut a, flags }, mut told) = (FIRST, [0; 8]);
    let mut flags = flags.ccr();
    // SAFETY: the rows are live and as long as the function takes them; those that it writes overlap nothing, and it keeps none.
    unsafe {
        c_listing_run(2 * pairs, words.as_ptr(), words.len(), &mut d, &mut a, &mut flags, budget, &mut told)
    };
    digest(told, &State { d, a, flags: Flags::of(flags) })
}

fn of_package(flags: gromavelush::Flags) -> Flags {
    let gromavelush::Flags { x, n, z, v, c } = flags;
    Flags { x, n, z, v, c }
}

fn for_package() -> gromavelush::State {
    gromavelush::State { d: FIRST.d, a: FIRST.a, flags: gromavelush::Flags::default() }
}

fn by_package(words: &[u64], pairs: usize, budget: u32) -> u64 {
    let mut state = for_package();
    let mut run = || gromavelush::run_words(black_box(words), &mut state, 0, budget);
    (1..2 * pairs).for_each(|_| {
        black_box(run());
    });
    let ran = run();
    let end = u64::from(ran.end == gromavelush::End::Budget);
    let told = [end, 0, 0, ran.next as u64, ran.steps.into(), ran.clocks, 0, 0];
    digest(told, &State { d: state.d, a: state.a, flags: of_package(state.flags) })
}

/// # Safety
/// There are `length` steps at `listing`. So it is with all rounds, or bytes at `text`.
#[unsafe(no_mangle)]
pub unsafe extern "C" fn c_run_rounds(listing: *const Step, length: usize, pairs: usize) -> u64 {
    // SAFETY: as above.
    by_c(&unsafe { words(listing, length) }, pairs, u32::MAX)
}

/// The same with no step done: what it takes to read the words.
///
/// # Safety
/// As above.
#[unsafe(no_mangle)]
pub unsafe extern "C" fn c_read_rounds(listing: *const Step, length: usize, pairs: usize) -> u64 {
    // SAFETY: as above.
    by_c(&unsafe { words(listing, length) }, pairs, 0)
}

/// # Safety
/// As above.
#[unsafe(no_mangle)]
pub unsafe extern "C" fn rust_run_rounds(listing: *const Step, length: usize, pairs: usize) -> u64 {
    // SAFETY: as above.
    by_package(&unsafe { words(listing, length) }, pairs, u32::MAX)
}

/// # Safety
/// As above.
#[unsafe(no_mangle)]
pub unsafe extern "C" fn rust_read_rounds(listing: *const Step, length: usize, pairs: usize) -> u64 {
    // SAFETY: as above.
    by_package(&unsafe { words(listing, length) }, pairs, 0)
}

/// What `tuned_rounds` answers of the recipe's steps. The last line must be one after which all flags are promised.
///
/// # Safety
/// As above.
#[unsafe(no_mangle)]
pub unsafe extern "C" fn c_recipe_rounds(text: *const u8, length: usize, pairs: usize) -> u64 {
    let (State { mut d, mut a, flags }, mut told) = (FIRST, [0; 8]);
    let mut flags = flags.ccr();
    // SAFETY: as in `by_c`.
    unsafe { c_recipe_run(2 * pairs, text, length, &mut d, &mut a, &mut flags, &mut told) };
    let [refused, _, _, steps, clocks, ..] = told;
    digest([refused, 0, 0, steps, steps, clocks, 0, 0], &State { d, a, flags: Flags::of(flags) })
}

/// # Safety
/// As above.
#[unsafe(no_mangle)]
pub unsafe extern "C" fn rust_recipe_rounds(text: *const u8, length: usize, pairs: usize) -> u64 {
    // SAFETY: as above.
    let text = unsafe { std::slice::from_raw_parts(text, length) };
    let mut state = for_package();
    let mut run = || gromavelush::run_text(black_box(text), &mut state);
    (1..2 * pairs).for_each(|_| {
        black_box(run().is_ok());
    });
    let (steps, clocks) = run().map_or((0, 0), |ran| (u64::from(ran.steps), ran.clocks));
    let state = State { d: state.d, a: state.a, flags: of_package(state.flags) };
    digest([0, 0, 0, steps, steps, clocks, 0, 0], &state)
}

/// A recipe that is read and translated, and not run.
///
/// # Safety
/// As above.
#[unsafe(no_mangle)]
pub unsafe extern "C" fn c_translate_rounds(text: *const u8, length: usize, pairs: usize) -> u64 {
    let (mut listing, mut told) = ([0; SLOTS], [0; 8]);
    // SAFETY: as in `by_c`.
    unsafe { c_recipe_translate(2 * pairs, text, length, listing.as_mut_ptr(), SLOTS, &mut told) };
    told[2]
}
