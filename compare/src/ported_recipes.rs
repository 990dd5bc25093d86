//! What of the port gives or takes a recipe, which no C function does. It is called as the kit compiles it, as in `ported`.
//! The layouts are those of `steps` and `recipes`.

use crate::recipes::{Recipe, Refused, SLOTS, Told};
use crate::steps::{Form, One, Size, Step};
use std::hint::black_box;
use std::mem::MaybeUninit;

/// A listing by value has CLR.L D255 in its other slots, which document 01 leaves open, by document 02 of line 0.
pub const BLANK: Step = Step { size: Size::Long, form: Form::One(One::Clr, 255), line: 0 };

/// recipes::types::Refusal: a byte, from 0 on in the order of `NUMBERS`.
type Refusal = u8;

/// Their numbers.
const NUMBERS: [u8; 9] = [4, 6, 7, 8, 9, 11, 12, 13, 14];

/// recipes::types::Refused
#[repr(C)]
struct RefusedAt {
    refusal: Refusal,
    line: usize,
    column: usize,
}

/// A `Result<T, Refused>`: 0 or 1 in the first eight bytes, of which this looks at the lowest, and behind them the value or the refusal.
#[repr(C, u8)]
#[allow(dead_code)] // the port makes them
enum Answer<T> {
    Ok(T),
    Err(RefusedAt),
}

/// recipes::types::Listing
#[repr(C)]
struct Listing {
    count: usize,
    steps: [Step; SLOTS],
}

unsafe extern "C" {
    fn recipes_reader_read(answer: *mut Answer<Recipe>, text: *const u8, length: usize);
    fn recipes_translator_translate_array(answer: *mut Answer<Listing>, recipe: *const Recipe);
    fn recipes_lent_translate(
        answer: *mut Answer<usize>,
        recipe: *const Recipe,
        listing: *mut Step,
        length: usize,
    );
}

impl RefusedAt {
    fn refused(&self) -> Refused {
        Refused { number: NUMBERS[usize::from(self.refusal)], line: self.line, column: self.column }
    }
}

fn answered<T>(ask: impl FnOnce(*mut T)) -> T {
    let mut answer = MaybeUninit::uninit();
    ask(answer.as_mut_ptr());
    // SAFETY: the port has written all of it.
    unsafe { answer.assume_init() }
}

/// The refusal, or its number 0, and the recipe. Of a refused text the port hands out none: document 01's, of width 1 and no lines, is made here, and says
/// nothing of the port.
pub fn read(text: &[u8]) -> (Refused, Recipe) {
    // SAFETY: the pointers are to live values, and the port keeps none of them.
    match answered(|answer| unsafe { recipes_reader_read(answer, text.as_ptr(), text.len()) }) {
        Answer::Ok(recipe) => (Refused::NONE, recipe),
        Answer::Err(slip) => (slip.refused(), Recipe::empty(1)),
    }
}

/// For a measurement of `translate_array`: the steps. The listing stays where the port wrote it.
pub fn steps_laid(recipe: &Recipe) -> usize {
    let mut listing = MaybeUninit::<Answer<Listing>>::uninit();
    // SAFETY: as above; the port has written which of the two it is, and all of that one.
    unsafe {
        recipes_translator_translate_array(listing.as_mut_ptr(), recipe);
        match black_box(&listing).assume_init_ref() {
            Answer::Ok(made) => made.count,
            Answer::Err(_) => 0,
        }
    }
}

/// What is told, and all slots. Of a refused recipe the port hands out none: blank ones are made here, and say nothing of the port.
pub fn translate_array(recipe: &Recipe) -> (Told, [Step; SLOTS]) {
    // SAFETY: as above.
    match answered(|answer| unsafe { recipes_translator_translate_array(answer, recipe) }) {
        Answer::Ok(Listing { count, steps }) => (Refused::NONE.told(count), steps),
        Answer::Err(slip) => (slip.refused().told(0), [BLANK; SLOTS]),
    }
}

/// What is told.
pub fn translate(recipe: &Recipe, listing: &mut [Step]) -> Told {
    // SAFETY: as above.
    match answered(|answer| unsafe { recipes_lent_translate(answer, recipe, listing.as_mut_ptr(), listing.len()) }) {
        Answer::Ok(count) => Refused::NONE.told(count),
        Answer::Err(slip) => slip.refused().told(0),
    }
}
