//! The port's C functions for recipes and listings, made safe; `port` has the one for operations. They are the functions of
//! crates/recipe_archive that bindings/c/gromavelush.h declares, and take and tell the same numbers.
//!
//! A row that is only written is full of ones before, so that a place that the port leaves out shows.

use crate::steps::{Flags, State, TOLD, Told};

mod c {
    use super::Told;

    unsafe extern "C" {
        pub fn recipe_answer(text: *const u8, length: usize, out: *mut u8, room: usize) -> usize;
        pub fn recipe_translate(
            text: *const u8,
            text_length: usize,
            listing: *mut u64,
            length: usize,
            told: &mut Told,
        );
        pub fn listing_run(
            listing: *const u64,
            length: usize,
            d: &mut [u32; 8],
            a: &mut [u32; 8],
            flags: &mut u8,
            start: usize,
            budget: u32,
            told: &mut Told,
        );
        pub fn rack_run(
            listing: *const u64,
            length: usize,
            d: *mut u32,
            d_length: usize,
            a: *mut u32,
            a_length: usize,
            flags: *mut u8,
            boxes: usize,
            starts: *const usize,
            starts_length: usize,
            budget: u32,
            answers: *mut u64,
            answers_length: usize,
            told: &mut Told,
        );
    }
}

/// How many bytes of `out` are the printed text.
pub fn recipe_answer(text: &[u8], out: &mut [u8]) -> usize {
    // SAFETY: the rows are live and as long as the function takes them; those that it writes overlap nothing, and it keeps none.
    unsafe { c::recipe_answer(text.as_ptr(), text.len(), out.as_mut_ptr(), out.len()) }
}

/// The refusal's number, its line, the number of steps and the refusal's column; then zeros.
pub fn recipe_translate(text: &[u8], listing: &mut [u64]) -> Told {
    let mut told = [u64::MAX; TOLD];
    // SAFETY: as above.
    unsafe { c::recipe_translate(text.as_ptr(), text.len(), listing.as_mut_ptr(), listing.len(), &mut told) };
    told
}

/// What `Ran::told` tells of other runs.
pub fn listing_run(listing: &[u64], state: &mut State, start: usize, budget: u32) -> Told {
    let mut flags = state.flags.ccr();
    let told = box_run(listing, &mut state.d, &mut state.a, &mut flags, start, budget);
    state.flags = Flags::of(flags);
    told
}

/// The same on registers and flags as they stand in a rack's rows.
pub fn box_run(
    listing: &[u64],
    d: &mut [u32; 8],
    a: &mut [u32; 8],
    flags: &mut u8,
    start: usize,
    budget: u32,
) -> Told {
    let mut told = [u64::MAX; TOLD];
    // SAFETY: as above.
    unsafe { c::listing_run(listing.as_ptr(), listing.len(), d, a, flags, start, budget, &mut told) };
    told
}

/// The refusal's number and the boxes that were run; then zeros. Of each box `d`, `a` and `answers` have eight words.
pub fn rack_run(
    listing: &[u64],
    [d, a]: [&mut [u32]; 2],
    flags: &mut [u8],
    starts: &[usize],
    budget: u32,
    answers: &mut [u64],
) -> Told {
    let mut told = [u64::MAX; TOLD];
    // SAFETY: as above.
    unsafe {
        c::rack_run(
            listing.as_ptr(),
            listing.len(),
            d.as_mut_ptr(),
            d.len(),
            a.as_mut_ptr(),
            a.len(),
            flags.as_mut_ptr(),
            flags.len(),
            starts.as_ptr(),
            starts.len(),
            budget,
            answers.as_mut_ptr(),
            answers.len(),
            &mut told,
        )
    };
    told
}
