//! The m68k crate's own operations as oracle, a second reading of document 01 to hold it to, and the
//! proved port to hold to both.

/// The crate's module tree: its text where it lies (see build.rs), the rest from `shim`. Lints are off
/// here only, since the text isn't ours to change.
#[allow(unused, clippy::all)]
pub mod core {
    include!(concat!(env!("OUT_DIR"), "/core.rs"));
    pub mod instructions {
        include!(concat!(env!("OUT_DIR"), "/instructions.rs"));
    }
    pub use crate::shim::{execute, memory, op_cache, timing, timing_060, trace_jit, window};
}
pub use shim::{fpu, mmu};

#[cfg(feature = "c_functions")]
pub mod c_functions;
pub mod cases;
pub mod check;
pub mod document;
#[cfg(feature = "step")]
pub mod line_checks;
pub mod machine;
pub mod oracle;
pub mod packed;
pub mod places;
#[cfg(feature = "port")]
pub mod port;
#[cfg(feature = "step")]
pub mod ported;
#[cfg(feature = "recipes")]
pub mod ported_recipes;
#[cfg(feature = "alone")]
pub mod ported_rounds;
#[cfg(feature = "step")]
pub mod rack_checks;
pub mod rack_examples;
#[cfg(feature = "step")]
pub mod rack_speed;
#[cfg(feature = "step")]
pub mod racks;
#[cfg(feature = "step")]
pub mod random_racks;
pub mod recipes;
pub mod refusals;
#[cfg(any(feature = "alone", feature = "shipped"))]
pub mod rounds;
pub mod shim;
#[cfg(feature = "shipped")]
pub mod shipped_rounds;
pub mod slips;
pub mod steps;
pub mod texts;
pub mod timing;
pub mod tuned;
pub mod vectors;
