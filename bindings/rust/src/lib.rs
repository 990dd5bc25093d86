//! Arithmetic of Motorola's 68000 that cannot drop a carry: the proved library Gromavelush, safe to call from Rust.
//!
//! Three floors, each usable alone:
//!
//! - single operations on values and flags: [`exec_add`], [`exec_addx`], [`exec_chk`] and 27 more;
//! - a step machine: a [`State`] of registers and flags, a [`Listing`] of [`Step`]s, and [`run`], which can be halted after
//!   any step and continued; [`rack`] runs one listing on up to [`MOST_BOXES`] states;
//! - counter recipes, short texts on whole numbers of one, two or four long words: [`translate`], [`print`](fn@print),
//!   [`answer`] and [`run_text`]; a [`Recipe`] made by hand prints as its text.
//!
//! What a function does not take it refuses, with one of the documents' numbers ([`Refusal`]), and changes nothing. No
//! function panics on any input; it does where the library that is linked is of another version, and tells what this
//! package doesn't know.
//!
//! Results, flags, figures, refusals, listings and printed bytes are proved in the library. This package carries numbers
//! there and back; it is tested, not proved. The README in `bindings/` says how to build and link it.
//!
//! # Example
//!
//! A counter of two long words stood at 1_FFFFFFFF and stands at 2_00000004:
//!
//! ```
//! use gromavelush::{State, run_text};
//!
//! let mut state = State::default();
//! state.set_number(2, 0, 0x1_FFFF_FFFF)?;
//! state.set_number(2, 1, 0x2_0000_0004)?;
//! let ran = run_text(b"width\t2\nsub\t0\t1\n", &mut state)?;
//! assert_eq!(state.number(2, 1), Some(5));
//! assert!(!ran.x, "the later counter is not below the earlier");
//! # Ok::<(), Box<dyn std::error::Error>>(())
//! ```

#![deny(missing_docs)]
#![deny(unsafe_code)]

#[cfg(not(target_pointer_width = "64"))]
compile_error!("the library is built for 64-bit machines only: Linux on x86-64 or Arm");

mod alu;
mod limits;
mod listing;
mod operations;
mod rack;
mod recipe;
mod state;
mod step;
#[allow(unsafe_code)]
mod sys;
mod types;

pub use alu::*;
pub use limits::{MOST_BOXES, MOST_LINES, MOST_STEPS, RECIPE_STEPS};
pub use listing::{End, Listing, Ran, TooLong, Trap, run, run_words};
pub use operations::{AddressOp, BitOp, OneOp, QuickOp, ShiftOp, TwoOp};
pub use rack::{rack, rack_run};
pub use recipe::{
    Line, Recipe, RecipeRun, Refused, Verb, answer, print, run_text, translate, translate_into,
};
pub use state::{NotSet, State};
pub use step::{A, Count, D, Form, NoStep, Register, Step};
pub use types::{Flags, Refusal, Size};
