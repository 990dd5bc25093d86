//! The proved port's C function.

use crate::packed::{Answer, Request};

unsafe extern "C" {
    /// Numbers in, a number out: it reads and writes no memory of ours, hence safe.
    pub safe fn alu_call(op: u8, size: u8, src: u32, dst: u32, ccr: u8) -> Answer;
}

/// The port's answer to any request.
pub fn answer(r: Request) -> Answer {
    alu_call(r.op.number(), r.size.number(), r.src, r.dst, r.ccr)
}
