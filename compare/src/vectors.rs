//! The frozen list of the crate's answers to one operation. README.md has the format of a line.

use crate::cases::Random;
use crate::oracle::Oracle;
use crate::packed::{Op, Request, Size};

/// Lines of a list; the operation's sizes share them evenly.
pub const LINES: usize = 1500;

/// Boundaries of the size. The last three of a byte's and a word's have bits above it.
fn values(size: Size) -> [u32; 15] {
    let mask = size.mask();
    let top = mask / 2 + 1;
    let [a, b, c] = match size {
        Size::Byte => [0xC3A5_0100, 0xC3A5_0135, 0xC3A5_0180],
        Size::Word => [0xC3A5_0000, 0xC3A5_0035, 0xC3A5_8000],
        Size::Long => [0x0000_FFFF, 0x0001_0000, 0xFFFF_8000],
    };
    let striped = mask / 3; // 55 hex, 5555 ..
    [0, 1, 2, striped, top - 2, top - 1, top, top + 1, top + 2, 2 * striped, mask - 1, mask, a, b, c]
}

fn sources(op: Op, size: Size) -> Vec<u32> {
    let n = size.bits();
    if op.is_unary() {
        vec![0]
    } else if op.is_bit() {
        vec![0, 1, 15, 16, 30, 31, 32, 0xFFFF_FFFF]
    } else if op.is_extended_rotate() {
        vec![0, 1, 2, n - 1, n, n + 1, 2 * n - 2, 33, 34, 51, 62, 63]
    } else if op.is_shift() {
        vec![0, 1, 2, n - 1, n, n + 1, 2 * n - 2, 33, 62, 63, 64, 65, 0xFFFF_FFC8]
    } else if op.is_quick() {
        (1..=8).collect()
    } else {
        values(size).to_vec()
    }
}

/// Boundaries crossed with the flags going round all 32 settings; a unary operation takes each value
/// with every setting.
fn crossed(op: Op, size: Size) -> Vec<Request> {
    let repeats = if op.is_unary() { 32 } else { 1 };
    let mut list = Vec::new();
    for src in sources(op, size) {
        for dst in values(size) {
            for _ in 0..repeats {
                let ccr = (list.len() % 32) as u8;
                list.push(Request { op, size, src, dst, ccr });
            }
        }
    }
    list
}

/// A random request within document 01's domain and the instruction's encoding.
fn random(op: Op, size: Size, generator: &mut Random) -> Request {
    let mut r = generator.request(op, size);
    if op.is_unary() {
        r.src = 0;
    } else if op.is_quick() {
        r.src = r.src % 8 + 1;
    } else if op.is_shift() {
        r.src %= 64;
    }
    r
}

/// The requests of an operation's list. The seed is the operation's own, so that a list stays as it is
/// when another operation is ported.
pub fn requests(op: Op) -> Vec<Request> {
    let mut generator = Random(1979 + u64::from(op.number()));
    let mut list = Vec::new();
    let share = LINES / op.sizes().len();
    for &size in op.sizes() {
        let mut part = crossed(op, size);
        assert!(part.len() <= share, "the boundaries leave no room in the list");
        part.resize_with(share, || random(op, size, &mut generator));
        list.append(&mut part);
    }
    list
}

fn line(r: Request, oracle: &mut Oracle) -> String {
    let a = oracle.answer(r);
    let figure = if matches!(r.op, Op::Addx | Op::Subx) { 0xFF } else { a.figure() };
    format!(
        "{:02X}\t{}\t{:08X}\t{:08X}\t{:02X}\t{:08X}\t{:02X}\t{figure:02X}\t{}\n",
        r.op.number(),
        r.size.number(),
        r.src,
        r.dst,
        r.ccr,
        a.result(),
        a.ccr(),
        a.class()
    )
}

/// The text of an operation's list.
pub fn text(op: Op) -> String {
    let mut oracle = Oracle::default();
    requests(op).into_iter().map(|r| line(r, &mut oracle)).collect()
}
