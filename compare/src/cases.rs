//! Inputs: boundary values crossed with all flag settings, and a small generator.

use crate::packed::{Op, Request, Size};

/// Numbers at which something changes at 8, 16 or 32 bits, with and without dirt above the size.
#[rustfmt::skip]
pub const BOUNDARIES: [u32; 44] = [
    0, 1, 2, 3, 7, 8, 0x0F, 0x10, 0x3F, 0x40, 0x55, 0x7E, 0x7F, 0x80, 0x81, 0xAA, 0xFE, 0xFF,
    0x100, 0x1234, 0x5555, 0x7FFE, 0x7FFF, 0x8000, 0x8001, 0xAAAA, 0xFF80, 0xFFFE, 0xFFFF,
    0x1_0000, 0x7FFF_FFFE, 0x7FFF_FFFF, 0x8000_0000, 0x8000_0001, 0xFFFF_FFFE, 0xFFFF_FFFF,
    0x5555_5555, 0xAAAA_AAAA, 0xFFFF_0000, 0xFFFF_8000, 0x8000_7FFF, 0x1234_5600, 0xFFFF_FF00,
    0xDEAD_BE80,
];

/// Counts: every one to 79, and some whose upper bits matter.
fn counts() -> Vec<u32> {
    (0..80).chain([127, 128, 129, 255, 256, 4096, 0x8000_0000, 0xFFFF_FFC0, 0xFFFF_FFFF]).collect()
}

/// The generator splitmix64.
pub struct Random(pub u64);

impl Random {
    /// With the number in SEED as seed, or 1979; it is printed. None if SEED is no number.
    pub fn seeded() -> Option<Random> {
        let seed = std::env::var("SEED").map_or(Some(1979), |word| word.parse().ok())?;
        println!("seed {seed}");
        Some(Random(seed))
    }

    pub fn bits(&mut self) -> u64 {
        self.0 = self.0.wrapping_add(0x9E37_79B9_7F4A_7C15);
        let mut z = self.0;
        z = (z ^ (z >> 30)).wrapping_mul(0xBF58_476D_1CE4_E5B9);
        z = (z ^ (z >> 27)).wrapping_mul(0x94D0_49BB_1331_11EB);
        z ^ (z >> 31)
    }

    pub fn below(&mut self, limit: usize) -> usize {
        (self.bits() % limit as u64) as usize
    }

    pub fn pick<T: Copy>(&mut self, of: &[T]) -> T {
        of[self.below(of.len())]
    }

    /// A number that is often at or next to a boundary.
    pub fn number(&mut self) -> u32 {
        let r = self.bits();
        let pick = BOUNDARIES[(r >> 8) as usize % BOUNDARIES.len()];
        match r % 4 {
            0 => pick,
            1 => pick ^ (1 << ((r >> 40) & 31)),
            2 => pick.wrapping_add(((r >> 40) & 7) as u32).wrapping_sub(3),
            _ => (r >> 32) as u32,
        }
    }

    /// A request with any operands. Half of the shifts get a small count, and the rotates through X one
    /// of their domain (`each` crosses the counts above it).
    #[inline(always)]
    pub fn request(&mut self, op: Op, size: Size) -> Request {
        let r = self.bits();
        let mut src = self.number();
        if op.is_extended_rotate() {
            src %= 64;
        } else if op.is_shift() && r & 32 != 0 {
            src %= 72;
        }
        Request { op, size, src, dst: self.number(), ccr: r as u8 & 31 }
    }
}

/// Every count for a shift or bit operation, every byte, else boundaries.
fn sources(op: Op, size: Size) -> Vec<u32> {
    if op.is_unary() {
        vec![0]
    } else if op.is_shift() || op.is_bit() {
        counts()
    } else if size == Size::Byte {
        (0..256).collect()
    } else {
        BOUNDARIES.to_vec()
    }
}

/// Every byte; every word where the sources are few; else boundaries.
fn values(op: Op, size: Size) -> Vec<u32> {
    match size {
        Size::Byte => (0..256).collect(),
        Size::Word if op.is_unary() || op.is_shift() => (0..65536).collect(),
        _ => BOUNDARIES.to_vec(),
    }
}

/// All 32 settings. Every word by every count takes four: all clear, X alone, all but X, all set.
fn settings(op: Op, size: Size) -> Vec<u8> {
    if op.is_shift() && size == Size::Word { vec![0, 16, 15, 31] } else { (0..32).collect() }
}

/// How many cases `each` takes: one in `every` of the crossed operands and flags, and so many `random`.
#[derive(Clone, Copy)]
pub struct Extent {
    pub every: u64,
    pub random: u64,
}

/// Calls `case` with the crossed operands and flags, then with random requests of a fixed seed.
#[inline(always)]
pub fn each(op: Op, size: Size, Extent { every, random }: Extent, mut case: impl FnMut(Request)) {
    let (sources, settings) = (sources(op, size), settings(op, size));
    let mut place = 0;
    for dst in values(op, size) {
        for &src in &sources {
            for &ccr in &settings {
                if place % every == 0 {
                    case(Request { op, size, src, dst, ccr });
                }
                place += 1;
            }
        }
    }
    let mut generator = Random(68000 + u64::from(op.number()) * 3 + u64::from(size.number()));
    for _ in 0..random {
        case(generator.request(op, size));
    }
}
