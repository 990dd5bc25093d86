//! Differential run: the crate against the reading of document 01, then the port against both.
//!
//!   differ [MILLIONS]   random cases of each operation and size (default 3); the port gets thrice that
//!   differ short        about 1.6 million cases in all, spread over the same operands: the gate's

use compare::cases::{self, Extent};
use compare::check::{Tally, crate_and_reading, port_and_both};
use compare::oracle::Oracle;
use compare::packed::{Answer, OPS, SIZES};
use compare::port::{self, alu_call};
use std::process::ExitCode;
use std::time::Instant;

/// The port's share of random cases: with the default, over 10^9 cases.
const PORT_SHARE: u64 = 3;

/// The short run. `every` is a prime, so that what it takes goes round the sources and the settings.
const SHORT: Extent = Extent { every: 997, random: 2_000 };

/// Operands of the requests whose numbers or flags stray: all zero, all set, a sum that carries.
const STRAY: [(u32, u32); 3] = [(0, 0), (u32::MAX, u32::MAX), (0x8000_8080, 0x8765_4321)];

fn crate_part(extent: Extent) -> Tally {
    println!("crate against the reading of 01");
    let mut all = Tally::default();
    for op in OPS {
        for &size in op.sizes() {
            let (mut oracle, mut tally) = (Oracle::default(), Tally::default());
            cases::each(op, size, extent, |r| crate_and_reading(&mut oracle, r, &mut tally));
            tally.print(format!("{op:?} {size:?}"));
            all += tally;
        }
    }
    all
}

/// All three sizes of each operation, so that refused ones are asked too.
fn port_part(extent: Extent) -> Tally {
    println!("port against the crate and the reading of 01");
    let extent = Extent { random: PORT_SHARE * extent.random, ..extent };
    let mut all = Tally::default();
    for op in OPS {
        for size in SIZES {
            let (mut oracle, mut tally) = (Oracle::default(), Tally::default());
            cases::each(op, size, extent, |r| port_and_both(port::answer(r), &mut oracle, r, &mut tally));
            tally.print(format!("{op:?} {size:?}"));
            all += tally;
        }
    }
    all
}

/// Counts whether the port answers as `wanted` to numbers that need not name an operation or a size.
fn stray(op: u8, size: u8, ccr: u8, wanted: impl Fn(u32, u32) -> Answer, tally: &mut Tally) {
    for (src, dst) in STRAY {
        let (port, wanted) = (alu_call(op, size, src, dst, ccr), wanted(src, dst));
        tally.count(port == wanted, || {
            let request = format!("op {op:02X} size {size:02X} src {src:08X} dst {dst:08X} ccr {ccr:02X}");
            format!("{request}\n  port     {port}\n  wanted   {wanted}")
        });
    }
}

/// Every pair of numbers that names no operation or no size: refusal 2.
fn unknown_numbers(settings: &[u8]) -> Tally {
    let mut tally = Tally::default();
    let known = |op, size| size < 3 && usize::from(op) < OPS.len();
    for op in 0..=u8::MAX {
        for size in (0..=u8::MAX).filter(|&size| !known(op, size)) {
            for &ccr in settings {
                stray(op, size, ccr, |_, _| Answer::refused(2, ccr), &mut tally);
            }
        }
    }
    tally.print("unknown operation numbers and sizes");
    tally
}

/// Bits above X in the flags don't count, as in the crate's `set_ccr`.
fn dirty_flags() -> Tally {
    let mut tally = Tally::default();
    for op in OPS.map(|op| op.number()) {
        for size in SIZES.map(|size| size.number()) {
            for ccr in 32..=u8::MAX {
                stray(op, size, ccr, |src, dst| alu_call(op, size, src, dst, ccr & 31), &mut tally);
            }
        }
    }
    tally.print("flags with bits above X");
    tally
}

/// The extent that the word on the command line asks for.
fn asked(word: Option<&str>) -> Option<Extent> {
    match word {
        None => asked(Some("3")),
        Some("short") => Some(SHORT),
        Some(word) => {
            let millions: u32 = word.parse().ok()?;
            Some(Extent { every: 1, random: u64::from(millions) * 1_000_000 })
        }
    }
}

fn main() -> ExitCode {
    let word = std::env::args().nth(1);
    let Some(extent) = asked(word.as_deref()) else {
        eprintln!("usage: differ [MILLIONS | short]");
        return ExitCode::from(2);
    };
    let start = Instant::now();
    let by_crate = crate_part(extent);
    let mut by_port = port_part(extent);
    let settings: Vec<u8> = if extent.every == 1 { (0..32).collect() } else { vec![0, 31] };
    by_port += unknown_numbers(&settings);
    by_port += dirty_flags();
    let differing = by_crate.differing + by_port.differing;
    let seconds = start.elapsed().as_secs_f64();
    println!(
        "total: crate {} cases, port {} cases, {differing} differ, {seconds:.0} s",
        by_crate.cases, by_port.cases
    );
    if differing == 0 { ExitCode::SUCCESS } else { ExitCode::FAILURE }
}
