//! Nanoseconds a call: the crate's operation and the port's, from the same loop over the same operands.
//! Each answer's flags go into the next call, as in a run of instructions.
//!
//!   speed [OP..]   none named: all of them. With the feature `fixed` the crate's operation is
//!                  chosen at compile time.

use compare::cases::Random;
use compare::oracle::Oracle;
use compare::packed::{Answer, OPS, Op, Request, Size, named};
use compare::port::alu_call;
use std::hint::black_box;
use std::process::ExitCode;
use std::time::Instant;

const OPERANDS: usize = 4096;
const ROUNDS: usize = 2000;

type CrateCall = fn(&mut Oracle, u8, u8, u32, u32, u8) -> Answer;

fn size_of(number: u8) -> Size {
    match number {
        0 => Size::Byte,
        1 => Size::Word,
        _ => Size::Long,
    }
}

/// The crate behind the call that the port has: not inlined, five numbers in, a packed answer out, the
/// operation chosen by its number.
#[cfg(not(feature = "fixed"))]
fn crate_call(_op: u8) -> CrateCall {
    #[inline(never)]
    fn called(oracle: &mut Oracle, op: u8, size: u8, src: u32, dst: u32, ccr: u8) -> Answer {
        oracle.answer(Request { op: OPS[usize::from(op)], size: size_of(size), src, dst, ccr })
    }
    called
}

/// The same with the operation chosen at compile time: the crate is spared the choice, and each of its
/// functions is compiled into a call of its own.
#[cfg(feature = "fixed")]
fn crate_call(op: u8) -> CrateCall {
    #[inline(never)]
    fn called<const OP: usize>(
        oracle: &mut Oracle,
        _op: u8,
        size: u8,
        src: u32,
        dst: u32,
        ccr: u8,
    ) -> Answer {
        oracle.answer(Request { op: OPS[OP], size: size_of(size), src, dst, ccr })
    }
    macro_rules! calls {
        ($($number:literal)*) => { [$(called::<$number>),*] };
    }
    #[rustfmt::skip]
    const CALLS: [CrateCall; OPS.len()] = calls!(
        0 1 2 3 4 5 6 7 8 9 10 11 12 13 14 15 16 17 18 19 20 21 22 23 24 25 26 27 28 29
    );
    CALLS[usize::from(op)]
}

/// One side's best round, the flags that go on, and a digest of all its results and flags.
struct Side {
    best: f64,
    ccr: u8,
    digest: u64,
}

impl Side {
    fn new() -> Side {
        Side { best: f64::MAX, ccr: 0, digest: 0 }
    }

    /// One round over all operands.
    #[inline(always)]
    fn round(&mut self, operands: &[(u32, u32)], mut call: impl FnMut(u32, u32, u8) -> Answer) {
        let start = Instant::now();
        for &(src, dst) in operands {
            let answer = call(src, dst, self.ccr);
            self.ccr = answer.ccr();
            // without the figure, which the crate doesn't return for every operation
            self.digest = self.digest.wrapping_mul(31).wrapping_add(answer.0 & 0x1F_FFFF_FFFF);
        }
        self.best = self.best.min(start.elapsed().as_nanos() as f64 / operands.len() as f64);
    }
}

/// Random operands; counts and small numbers within their range.
fn operands(op: Op, size: Size) -> Vec<(u32, u32)> {
    let mut random = Random(7);
    let mut pair = || {
        let r = random.request(op, size);
        match op {
            _ if op.is_shift() => (r.src % 33, r.dst),
            _ if op.is_quick() => (r.src % 8 + 1, r.dst),
            _ => (r.src, r.dst),
        }
    };
    (0..OPERANDS).map(|_| pair()).collect()
}

/// Nanoseconds a call of the crate and of the port: the best of many short rounds in turn, so that other
/// work on the machine hits both alike and shows little. Different answers have no time to compare.
fn measure(op: Op, size: Size) -> Result<(f64, f64), String> {
    let operands = operands(op, size);
    let mut oracle = Oracle::default();
    let (mut by_crate, mut by_port) = (Side::new(), Side::new());
    let (number, size) = (black_box(op.number()), black_box(size.number()));
    let call = black_box(crate_call(number));
    let port_call = black_box(alu_call as extern "C" fn(u8, u8, u32, u32, u8) -> Answer);
    for _ in 0..ROUNDS {
        by_crate.round(&operands, |src, dst, ccr| call(&mut oracle, number, size, src, dst, ccr));
        by_port.round(&operands, |src, dst, ccr| port_call(number, size, src, dst, ccr));
    }
    if by_crate.digest == by_port.digest {
        Ok((by_crate.best, by_port.best))
    } else {
        Err(format!("{op:?}: the answers differ, digest {:X} and {:X}", by_crate.digest, by_port.digest))
    }
}

/// A line for each operation and size, then the greatest ratio.
fn table(ops: &[Op]) -> Result<(), String> {
    println!("op\tsize\tcrate ns\tport ns\tport/crate");
    let mut greatest = 0f64;
    for &op in ops {
        for &size in op.sizes() {
            let (by_crate, by_port) = measure(op, size)?;
            let ratio = by_port / by_crate;
            println!("{op:?}\t{size:?}\t{by_crate:.2}\t{by_port:.2}\t{ratio:.2}");
            greatest = greatest.max(ratio);
        }
    }
    println!("greatest ratio: {greatest:.2}");
    Ok(())
}

/// The message on standard error, and the status.
fn fail(why: &str, status: u8) -> ExitCode {
    eprintln!("speed: {why}");
    ExitCode::from(status)
}

fn main() -> ExitCode {
    let names: Vec<String> = std::env::args().skip(1).collect();
    let ops = match named(&names) {
        Ok(ops) => ops,
        Err(why) => return fail(&why, 2),
    };
    match table(&ops) {
        Ok(()) => ExitCode::SUCCESS,
        Err(why) => fail(&why, 1),
    }
}
