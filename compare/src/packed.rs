//! The calling convention that the oracle, the reading of document 01 and the port share: numbers in,
//! one u64 out, so that it crosses a C boundary and compares with one `==`. README.md has the layout.

use std::fmt;

/// The operations. The number of each in the convention is its place here.
#[derive(Clone, Copy, PartialEq, Eq, Debug)]
#[repr(u8)]
#[rustfmt::skip]
pub enum Op {
    Add, Sub, Cmp, Addx, Subx,
    Adda, Suba, Cmpa,
    /// ADDQ and SUBQ on a data register, then on an address register
    Addq, Subq, AddqA, SubqA,
    Clr, Neg, Negx, Not, Ext,
    Asl, Asr, Lsl, Lsr, Rol, Ror, Roxl, Roxr,
    Btst, Bset, Bclr, Bchg,
    Chk,
}

use Op::*;

#[rustfmt::skip]
pub const OPS: [Op; 30] = [
    Add, Sub, Cmp, Addx, Subx, Adda, Suba, Cmpa, Addq, Subq, AddqA, SubqA, Clr, Neg, Negx, Not,
    Ext, Asl, Asr, Lsl, Lsr, Rol, Ror, Roxl, Roxr, Btst, Bset, Bclr, Bchg, Chk,
];

impl Op {
    pub fn number(self) -> u8 {
        self as u8
    }

    /// The name in file names and on the command line.
    pub fn name(self) -> String {
        format!("{self:?}").to_lowercase()
    }

    pub fn is_shift(self) -> bool {
        (Asl.number()..=Roxr.number()).contains(&self.number())
    }

    pub fn is_bit(self) -> bool {
        matches!(self, Btst | Bset | Bclr | Bchg)
    }

    /// Has no source operand.
    pub fn is_unary(self) -> bool {
        matches!(self, Clr | Neg | Negx | Not | Ext)
    }

    /// Has a source of 1 to 8 in its encoding.
    pub fn is_quick(self) -> bool {
        matches!(self, Addq | Subq | AddqA | SubqA)
    }

    /// Rotates through X: the only ones whose count isn't reduced mod 64.
    pub fn is_extended_rotate(self) -> bool {
        matches!(self, Roxl | Roxr)
    }

    /// The sizes of document 01's forms table.
    pub fn sizes(self) -> &'static [Size] {
        use Size::*;
        match self {
            Adda | Suba | Cmpa | AddqA | SubqA | Ext => &[Word, Long],
            Btst | Bset | Bclr | Bchg => &[Long],
            Chk => &[Word],
            _ => &[Byte, Word, Long],
        }
    }
}

/// The operations that `names` name in any case, or all of them if there is no name.
pub fn named(names: &[String]) -> Result<Vec<Op>, String> {
    if names.is_empty() {
        return Ok(OPS.to_vec());
    }
    names.iter().map(|name| one_named(name)).collect()
}

fn one_named(name: &str) -> Result<Op, String> {
    let lower = name.to_lowercase();
    OPS.into_iter().find(|op| op.name() == lower).ok_or(format!("{name} is no operation"))
}

#[derive(Clone, Copy, PartialEq, Eq, Debug)]
#[repr(u8)]
pub enum Size {
    Byte,
    Word,
    Long,
}

pub const SIZES: [Size; 3] = [Size::Byte, Size::Word, Size::Long];

impl Size {
    pub fn number(self) -> u8 {
        self as u8
    }

    pub fn bits(self) -> u32 {
        8 << self.number()
    }

    /// The greatest number of this size.
    pub fn mask(self) -> u32 {
        u32::MAX >> (32 - self.bits())
    }
}

pub const X: u8 = 16;
pub const N: u8 = 8;
pub const Z: u8 = 4;
pub const V: u8 = 2;
pub const C: u8 = 1;

/// `ccr` as five letters, a dash for a clear flag.
pub fn flags_text(ccr: u8) -> String {
    let letter = |(bit, letter)| if ccr & bit != 0 { letter } else { '-' };
    [(X, 'X'), (N, 'N'), (Z, 'Z'), (V, 'V'), (C, 'C')].map(letter).iter().collect()
}

#[derive(Clone, Copy, PartialEq, Eq, Debug)]
pub struct Request {
    pub op: Op,
    pub size: Size,
    /// Source, small number, shift count, bit number, or CHK's bound; unary operations ignore it.
    pub src: u32,
    /// Destination or value, all 32 bits of the register.
    pub dst: u32,
    pub ccr: u8,
}

impl Request {
    /// Whether document 01 accepts it. Only there has the crate an answer to compare with.
    pub fn in_domain(&self) -> bool {
        self.op.sizes().contains(&self.size) && !(self.op.is_extended_rotate() && self.src > 63)
    }
}

impl fmt::Display for Request {
    fn fmt(&self, f: &mut fmt::Formatter) -> fmt::Result {
        let Request { op, size, src, dst, ccr } = self;
        write!(f, "{op:?} {size:?} src {src:08X} dst {dst:08X} {}", flags_text(*ccr))
    }
}

/// A packed answer.
#[derive(Clone, Copy, PartialEq, Eq, Debug)]
#[repr(transparent)]
pub struct Answer(pub u64);

impl Answer {
    pub fn accepted(result: u32, ccr: u8, figure: u32) -> Answer {
        debug_assert!(ccr < 32 && figure < 256);
        Answer(u64::from(result) | u64::from(ccr) << 32 | u64::from(figure) << 40)
    }

    /// Result 0, figure 0, the flags as they came.
    pub fn refused(number: u8, ccr: u8) -> Answer {
        Answer(u64::from(ccr) << 32 | u64::from(number) << 48)
    }

    pub fn with_class(self, class: u8) -> Answer {
        Answer(self.0 | u64::from(class) << 52)
    }

    pub fn result(self) -> u32 {
        self.0 as u32
    }

    pub fn ccr(self) -> u8 {
        (self.0 >> 32) as u8 & 31
    }

    pub fn figure(self) -> u8 {
        (self.0 >> 40) as u8
    }

    pub fn verdict(self) -> u8 {
        (self.0 >> 48) as u8 & 3
    }

    pub fn class(self) -> u8 {
        (self.0 >> 52) as u8 & 3
    }

    /// What of it document 01 compares with the crate: all but the figures of ADDX and SUBX (the crate
    /// returns none), and CHK's Short counts as Over (the crate runs both on one path).
    pub fn comparable(self, op: Op) -> Answer {
        match op {
            Addx | Subx => Answer(self.0 & !(0xFF << 40)),
            Chk if self.class() == 2 => Answer(self.0 & !(3 << 52)).with_class(1),
            _ => self,
        }
    }
}

impl fmt::Display for Answer {
    fn fmt(&self, f: &mut fmt::Formatter) -> fmt::Result {
        let flags = flags_text(self.ccr());
        write!(f, "{:08X} {flags} figure {}", self.result(), self.figure())?;
        write!(f, " verdict {} class {} ({:016X})", self.verdict(), self.class(), self.0)
    }
}
