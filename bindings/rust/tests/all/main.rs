//! The tests of the package, one program.

mod common;
#[path = "../../../../compare/src/rack_examples.rs"]
mod rack_examples;
mod racks;
mod recipes;
mod refusals;
#[path = "../../../../compare/src/refusals.rs"]
mod rows;
mod runs;
mod sums;
mod words;
