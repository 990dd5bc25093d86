//! Step records, laid out as the port lays out its own (C's layout, a byte for a variant, its fields after it), so that one
//! listing in memory is run by both; what the C functions take and tell in their place, laid out as
//! bindings/c/gromavelush.h says; and the listings that `runs` runs, made of random numbers. A digest stands for all that
//! the runs of a listing answer.

use crate::recipes::SLOTS;

#[derive(Clone, Copy, PartialEq, Debug)]
#[repr(u8)]
pub enum Size {
    Byte,
    Word,
    Long,
}
#[derive(Clone, Copy, PartialEq, Debug)]
#[repr(C)]
pub struct Flags {
    pub x: bool,
    pub n: bool,
    pub z: bool,
    pub v: bool,
    pub c: bool,
}

impl Flags {
    /// X 16, N 8, Z 4, V 2, C 1
    pub fn ccr(self) -> u8 {
        [self.x, self.n, self.z, self.v, self.c].into_iter().fold(0, |sum, flag| sum * 2 + u8::from(flag))
    }

    pub fn of(ccr: u8) -> Flags {
        let [x, n, z, v, c] = [16, 8, 4, 2, 1].map(|weight| ccr & weight != 0);
        Flags { x, n, z, v, c }
    }
}

#[derive(Clone, Copy, PartialEq, Debug)]
#[repr(u8)]
pub enum Two {
    Add,
    Sub,
    Cmp,
    Addx,
    Subx,
}
#[derive(Clone, Copy, PartialEq, Debug)]
#[repr(u8)]
pub enum Adr {
    Adda,
    Suba,
    Cmpa,
}
#[derive(Clone, Copy, PartialEq, Debug)]
#[repr(u8)]
pub enum Quick {
    Addq,
    Subq,
}
#[derive(Clone, Copy, PartialEq, Debug)]
#[repr(u8)]
pub enum One {
    Clr,
    Neg,
    Negx,
    Not,
    Ext,
}
#[derive(Clone, Copy, PartialEq, Debug)]
#[repr(u8)]
pub enum Shift {
    Asl,
    Asr,
    Lsl,
    Lsr,
    Rol,
    Ror,
    Roxl,
    Roxr,
}
#[derive(Clone, Copy, PartialEq, Debug)]
#[repr(u8)]
pub enum Bit {
    Btst,
    Bset,
    Bclr,
    Bchg,
}
#[derive(Clone, Copy, PartialEq, Debug)]
#[repr(u8)]
pub enum Register {
    Data(u8),
    Address(u8),
}
#[derive(Clone, Copy, PartialEq, Debug)]
#[repr(u8)]
pub enum Count {
    Small(u8),
    Data(u8),
}
#[derive(Clone, Copy, PartialEq, Debug)]
#[repr(u8)]
pub enum Form {
    Two(Two, u8, u8),
    Address(Adr, Register, u8),
    Quick(Quick, u8, Register),
    One(One, u8),
    Shift(Shift, Count, u8),
    Bit(Bit, Count, u8),
    Chk(u8, u8),
}
#[derive(Clone, Copy, PartialEq, Debug)]
#[repr(C)]
pub struct Step {
    pub size: Size,
    pub form: Form,
    pub line: u8,
}

const TWOS: [Two; 5] = [Two::Add, Two::Sub, Two::Cmp, Two::Addx, Two::Subx];
const ADRS: [Adr; 3] = [Adr::Adda, Adr::Suba, Adr::Cmpa];
const QUICKS: [Quick; 2] = [Quick::Addq, Quick::Subq];
const ONES: [One; 5] = [One::Clr, One::Neg, One::Negx, One::Not, One::Ext];
#[rustfmt::skip]
const SHIFTS: [Shift; 8] =
    [Shift::Asl, Shift::Asr, Shift::Lsl, Shift::Lsr, Shift::Rol, Shift::Ror, Shift::Roxl, Shift::Roxr];
const BITS: [Bit; 4] = [Bit::Btst, Bit::Bset, Bit::Bclr, Bit::Bchg];

impl Step {
    /// The step's word: the operation, the size, the source's kind and number, the destination and the line, from the lowest
    /// byte up.
    pub fn word(&self) -> u64 {
        let (operation, kind, from, to) = match self.form {
            Form::Two(op, from, to) => (op as u8, 2, from, to),
            Form::Address(op, Register::Data(from), to) => (5 + op as u8, 2, from, to),
            Form::Address(op, Register::Address(from), to) => (5 + op as u8, 3, from, to),
            Form::Quick(op, small, Register::Data(to)) => (8 + op as u8, 1, small, to),
            Form::Quick(op, small, Register::Address(to)) => (10 + op as u8, 1, small, to),
            Form::One(op, to) => (12 + op as u8, 0, 0, to),
            Form::Shift(op, Count::Small(small), to) => (17 + op as u8, 1, small, to),
            Form::Shift(op, Count::Data(from), to) => (17 + op as u8, 2, from, to),
            Form::Bit(op, Count::Small(small), to) => (25 + op as u8, 1, small, to),
            Form::Bit(op, Count::Data(from), to) => (25 + op as u8, 2, from, to),
            Form::Chk(from, to) => (29, 2, from, to),
        };
        u64::from_le_bytes([operation, self.size as u8, kind, from, to, self.line, 0, 0])
    }

    /// The step that a word names, if it names one. The two highest bytes don't count.
    pub fn named(word: u64) -> Option<Step> {
        let [operation, size, kind, from, to, line, ..] = word.to_le_bytes();
        let at = usize::from(operation);
        let count = if kind == 1 { Count::Small(from) } else { Count::Data(from) };
        let source = if kind == 2 { Register::Data(from) } else { Register::Address(from) };
        let form = match (operation, kind) {
            (0..5, 2) => Form::Two(TWOS[at], from, to),
            (5..8, 2 | 3) => Form::Address(ADRS[at - 5], source, to),
            (8..10, 1) => Form::Quick(QUICKS[at - 8], from, Register::Data(to)),
            (10..12, 1) => Form::Quick(QUICKS[at - 10], from, Register::Address(to)),
            (12..17, 0) => Form::One(ONES[at - 12], to),
            (17..25, 1 | 2) => Form::Shift(SHIFTS[at - 17], count, to),
            (25..29, 1 | 2) => Form::Bit(BITS[at - 25], count, to),
            (29, 2) => Form::Chk(from, to),
            _ => return None,
        };
        Some(Step { size: *SIZES.get(usize::from(size))?, form, line })
    }

    /// What a word stands for: if it names no step, a CHK of a byte, with the word's line.
    pub fn of_word(word: u64) -> Step {
        let [.., line, _, _] = word.to_le_bytes();
        Step::named(word).unwrap_or(Step { size: Size::Byte, form: Form::Chk(0, 0), line })
    }
}

#[derive(Clone, Copy, PartialEq, Debug)]
#[repr(C)]
pub struct State {
    pub d: [u32; 8],
    pub a: [u32; 8],
    pub flags: Flags,
}
#[derive(Clone, Copy, PartialEq, Debug)]
#[repr(u8)]
pub enum Fault {
    Small,
    NoSize,
    NoRegister,
    StartPastEnd,
}
#[derive(Clone, Copy, PartialEq, Debug)]
#[repr(u8)]
pub enum Class {
    Over,
    Short,
    Below,
}
pub enum Stop {
    Trapped(Class, u32),
    Refused(Fault),
}
/// A trap and a refusal have their place, and the line of the step there; a start past the end has line 0.
#[derive(Clone, Copy, PartialEq, Debug)]
#[repr(u8)]
pub enum End {
    Finished,
    Budget,
    Trapped(Class, usize, u8),
    Refused(Fault, usize, u8),
}
/// What a run says beside the state that it leaves. The port has it so in a rack's slots.
#[derive(Clone, Copy, PartialEq, Debug)]
#[repr(C)]
pub struct Ran {
    pub end: End,
    pub next: usize,
    pub steps: u32,
    pub clocks: u64,
}

/// How many numbers a C function tells.
pub const TOLD: usize = 8;

pub type Told = [u64; TOLD];

impl Ran {
    /// In the order of the C function listing_run: the end, the trap's class or the refusal's number, the place of either, the
    /// next place, the steps, the clocks, the end's line; then 0.
    pub fn told(&self) -> Told {
        const NUMBERS: [u64; 4] = [1, 2, 3, 10];
        let (end, which, place, line) = match self.end {
            End::Finished => (0, 0, 0, 0),
            End::Budget => (1, 0, 0, 0),
            End::Trapped(class, place, line) => (2, 1 + class as u64, place, line),
            End::Refused(fault, place, line) => (3, NUMBERS[fault as usize], place, line),
        };
        let [place, next] = [place, self.next].map(|place| place as u64);
        [end, which, place, next, self.steps.into(), self.clocks, line.into(), 0]
    }
}

pub const FIRST: State = State {
    d: [1, 2, 3, 4, 5, 6, 7, 8],
    a: [9, 10, 11, 12, 13, 14, 15, 16],
    flags: Flags { x: false, n: false, z: false, v: false, c: false },
};

fn next(x: u32) -> u32 {
    x.wrapping_mul(1664525).wrapping_add(1013904223)
}

const SIZES: [Size; 3] = [Size::Byte, Size::Word, Size::Long];

fn fitting_size(kind: u32, k: u32, z: u32) -> Size {
    let wide = if z.is_multiple_of(2) { Size::Word } else { Size::Long };
    match kind {
        5..9 => wide,
        9..11 if k % 5 == 4 => wide,
        14 => Size::Long,
        15.. => Size::Word,
        _ => SIZES[z as usize],
    }
}

fn form_of(kind: u32, k: u32, small: u8, s: u8, r: u8) -> Form {
    let place =
        |register| if k.is_multiple_of(2) { Register::Data(register) } else { Register::Address(register) };
    let count = if k.is_multiple_of(2) { Count::Small(small) } else { Count::Data(s) };
    match kind {
        0..5 => Form::Two(TWOS[(k % 5) as usize], s, r),
        5..7 => Form::Address(ADRS[(k % 3) as usize], place(s), r),
        7..9 => Form::Quick(QUICKS[(k / 2 % 2) as usize], small, place(r)),
        9..11 => Form::One(ONES[(k % 5) as usize], r),
        11..14 => Form::Shift(SHIFTS[(k / 2 % 8) as usize], count, r),
        14 => Form::Bit(BITS[(k / 2 % 4) as usize], count, r),
        15 => Form::Chk(7, 7),
        _ => Form::Chk(s, r),
    }
}

/// Kinds of steps in a listing: below 16 of that kind alone.
pub const MIXED: u32 = 16;
pub const WILD: u32 = 17;

/// A step made of the random number x: of mixed kinds, all of them done (MIXED); or (WILD) one in sixteen made by y to
/// be refused, or a CHK that may trap. Its line is any.
fn step_of(kinds: u32, x: u32, y: u32, line: u8) -> Step {
    let wild = if kinds < WILD { 99 } else { y % 64 };
    let kind = if wild == 4 {
        16
    } else if kinds < MIXED {
        kinds
    } else {
        x % 16
    };
    let (r, s) = ((x / 16 % 7) as u8, (x / 128 % 8) as u8);
    let (k, z) = (x / 1024 % 64, x / 65536 % 3);
    let size = if wild == 2 { SIZES[(y / 64 % 3) as usize] } else { fitting_size(kind, k, z) };
    let small = if wild == 3 { (y / 64 % 36) as u8 } else { s + 1 };
    let source = if wild == 1 { s + 8 } else { s };
    let target = if wild == 0 { r + 8 } else { r };
    Step { size, form: form_of(kind, k, small, source, target), line }
}

/// Steps without end.
pub fn steps_of(kinds: u32, seed: u32) -> impl Iterator<Item = Step> {
    let mut x = seed;
    std::iter::repeat_with(move || {
        x = next(x);
        let y = next(x);
        step_of(kinds, x / 256, y / 256, (next(y) >> 24) as u8)
    })
}

pub fn listing_of(kinds: u32, seed: u32) -> [Step; SLOTS] {
    let steps: Vec<Step> = steps_of(kinds, seed).take(SLOTS).collect();
    std::array::from_fn(|at| steps[at])
}

const PRIME: u64 = 1_000_000_007;

fn mixed(sum: u64, value: u64) -> u64 {
    (sum * 31 + value % PRIME) % PRIME
}

/// All that is told of a run; the registers are not in it.
pub fn answered(sum: u64, told: Told) -> u64 {
    told.into_iter().fold(sum, mixed)
}

pub fn registers(sum: u64, state: &State) -> u64 {
    let all = (0..8).fold(sum, |sum, i| mixed(mixed(sum, u64::from(state.d[i])), u64::from(state.a[i])));
    mixed(all, state.flags.ccr().into())
}
