//! The library's C functions, made safe. `bindings/c/gromavelush.h` says what each one does, and what its caller must
//! keep. `unsafe` stands here alone.

use crate::limits::TOLD;

mod c {
    unsafe extern "C" {
        /// Numbers in, a number out: it reads and writes no memory of ours, hence safe.
        pub safe fn alu_call(operation: u8, size: u8, src: u32, dst: u32, flags: u8) -> u64;
        pub fn listing_run(
            listing: *const u64,
            length: usize,
            d: *mut u32,
            a: *mut u32,
            flags: *mut u8,
            start: usize,
            budget: u32,
            told: *mut u64,
        );
        pub fn rack_run(
            listing: *const u64,
            length: usize,
            d: *mut u32,
            d_length: usize,
            a: *mut u32,
            a_length: usize,
            flags: *mut u8,
            boxes: usize,
            starts: *const usize,
            starts_length: usize,
            budget: u32,
            answers: *mut u64,
            answers_length: usize,
            told: *mut u64,
        );
        pub fn listing_print(
            width: u8,
            listing: *const u64,
            length: usize,
            out: *mut u8,
            room: usize,
        ) -> usize;
        pub fn recipe_translate(
            text: *const u8,
            text_length: usize,
            listing: *mut u64,
            length: usize,
            told: *mut u64,
        );
        pub fn recipe_answer(text: *const u8, length: usize, out: *mut u8, room: usize) -> usize;
        pub fn recipe_run(
            text: *const u8,
            length: usize,
            d: *mut u32,
            a: *mut u32,
            flags: *mut u8,
            told: *mut u64,
        );
    }
}

pub use c::alu_call;

/// The eight data registers, the eight address registers, the flags.
pub struct Registers<'a> {
    pub d: &'a mut [u32; 8],
    pub a: &'a mut [u32; 8],
    pub flags: &'a mut u8,
}

pub fn listing_run(listing: &[u64], on: Registers, start: usize, budget: u32) -> [u64; TOLD] {
    let mut told = [0; TOLD];
    // SAFETY: each pointer is of a reference or a slice, so it is aligned, not null, and to as many set elements as the
    // function takes there; the lengths are the slices' own. The rows that it writes are borrowed mutably or are ours,
    // so they overlap nothing. It keeps no pointer.
    unsafe {
        c::listing_run(
            listing.as_ptr(),
            listing.len(),
            on.d.as_mut_ptr(),
            on.a.as_mut_ptr(),
            on.flags,
            start,
            budget,
            told.as_mut_ptr(),
        );
    }
    told
}

/// The rows of a rack: of each box eight data registers, eight address registers, a byte of flags, and eight numbers.
pub struct Rows<'a> {
    pub d: &'a mut [u32],
    pub a: &'a mut [u32],
    pub flags: &'a mut [u8],
    pub answers: &'a mut [u64],
}

pub fn rack_run(listing: &[u64], on: Rows, starts: &[usize], budget: u32) -> [u64; TOLD] {
    let mut told = [0; TOLD];
    // SAFETY: every row is a slice, handed over with its own length, or is ours and has the length that the function takes;
    // those that it writes are borrowed mutably or are ours, so they overlap nothing. It keeps no pointer.
    unsafe {
        c::rack_run(
            listing.as_ptr(),
            listing.len(),
            on.d.as_mut_ptr(),
            on.d.len(),
            on.a.as_mut_ptr(),
            on.a.len(),
            on.flags.as_mut_ptr(),
            on.flags.len(),
            starts.as_ptr(),
            starts.len(),
            budget,
            on.answers.as_mut_ptr(),
            on.answers.len(),
            told.as_mut_ptr(),
        );
    }
    told
}

pub fn listing_print(width: u8, listing: &[u64], out: &mut [u8]) -> usize {
    // SAFETY: both rows are slices, handed over with their own lengths; `out` is borrowed mutably, so they don't overlap.
    // It keeps no pointer.
    unsafe { c::listing_print(width, listing.as_ptr(), listing.len(), out.as_mut_ptr(), out.len()) }
}

pub fn recipe_translate(text: &[u8], listing: &mut [u64]) -> [u64; TOLD] {
    let mut told = [0; TOLD];
    // SAFETY: `text` and `listing` are slices, handed over with their own lengths; `listing` is borrowed mutably and `told`
    // is ours, of the length that the function takes, so no row that is written overlaps another. It keeps no pointer.
    unsafe {
        c::recipe_translate(
            text.as_ptr(),
            text.len(),
            listing.as_mut_ptr(),
            listing.len(),
            told.as_mut_ptr(),
        );
    }
    told
}

pub fn recipe_answer(text: &[u8], out: &mut [u8]) -> usize {
    // SAFETY: both rows are slices, handed over with their own lengths; `out` is borrowed mutably, so they don't overlap.
    // It keeps no pointer.
    unsafe { c::recipe_answer(text.as_ptr(), text.len(), out.as_mut_ptr(), out.len()) }
}

pub fn recipe_run(text: &[u8], on: Registers) -> [u64; TOLD] {
    let mut told = [0; TOLD];
    // SAFETY: `text` is a slice, handed over with its own length; the rows that are written are borrowed mutably or are
    // ours, so they overlap nothing, and have the lengths that the function takes. It keeps no pointer.
    unsafe {
        c::recipe_run(
            text.as_ptr(),
            text.len(),
            on.d.as_mut_ptr(),
            on.a.as_mut_ptr(),
            on.flags,
            told.as_mut_ptr(),
        );
    }
    told
}
