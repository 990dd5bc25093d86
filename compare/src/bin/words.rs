//! All 2^32 pairs of words of the operations with two operands, against the crate and the reading
//! of document 01. A pair gets one setting of the flags; they go round all 32.
//!
//!   words [OP..]   none named: all of them

use compare::check::{Tally, port_and_both};
use compare::oracle::Oracle;
use compare::packed::{Op, Request, Size, named};
use compare::port;
use std::process::ExitCode;
use std::time::Instant;

fn pairs(op: Op) -> Tally {
    let (mut oracle, mut tally) = (Oracle::default(), Tally::default());
    for src in 0..65536u32 {
        for dst in 0..65536 {
            let ccr = (src * 7 + dst) as u8 & 31;
            let r = Request { op, size: Size::Word, src, dst, ccr };
            port_and_both(port::answer(r), &mut oracle, r, &mut tally);
        }
    }
    tally
}

/// `differ` takes every word of a unary operation, and every word by every count of a shift.
fn is_left_out(op: Op) -> bool {
    op.is_unary() || op.is_shift() || !op.sizes().contains(&Size::Word)
}

/// The operations named, or all that aren't left out.
fn chosen(names: &[String]) -> Result<Vec<Op>, String> {
    let ops = named(names)?;
    match ops.iter().find(|&&op| is_left_out(op) && !names.is_empty()) {
        Some(op) => Err(format!("{op:?} has no pairs of words, or differ takes every word of it")),
        None => Ok(ops.into_iter().filter(|&op| !is_left_out(op)).collect()),
    }
}

fn main() -> ExitCode {
    let names: Vec<String> = std::env::args().skip(1).collect();
    let ops = match chosen(&names) {
        Ok(ops) => ops,
        Err(why) => {
            eprintln!("words: {why}");
            return ExitCode::from(2);
        }
    };
    let mut all = Tally::default();
    for op in ops {
        let start = Instant::now();
        let tally = pairs(op);
        tally.print(format!("{op:?} Word, {:.0} s", start.elapsed().as_secs_f64()));
        all += tally;
    }
    all.print("total");
    if all.differing == 0 { ExitCode::SUCCESS } else { ExitCode::FAILURE }
}
