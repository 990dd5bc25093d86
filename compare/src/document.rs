//! A plain reading of document 01, "Result and flag rules", "Clock figures" and "Refusal numbers", in
//! whole-number arithmetic. It shares nothing with the crate but the packed form of an answer.

use crate::packed::{self, Answer, Op::*, Request, Size};

#[derive(Clone, Copy)]
struct Flags {
    x: bool,
    n: bool,
    z: bool,
    v: bool,
    c: bool,
}

impl Flags {
    fn of(ccr: u8) -> Flags {
        let set = |bit| ccr & bit != 0;
        Flags {
            x: set(packed::X),
            n: set(packed::N),
            z: set(packed::Z),
            v: set(packed::V),
            c: set(packed::C),
        }
    }

    fn ccr(self) -> u8 {
        self.x as u8 * packed::X
            + self.n as u8 * packed::N
            + self.z as u8 * packed::Z
            + self.v as u8 * packed::V
            + self.c as u8 * packed::C
    }
}

// Exact whole numbers: nothing here comes near 2^127.

/// 2^n
fn two(n: u32) -> i128 {
    1 << n
}

/// number mod 2^n, from 0 up
fn modulo(number: i128, n: u32) -> i128 {
    number & (two(n) - 1)
}

/// number / 2^n, rounded down
fn over(number: i128, n: u32) -> i128 {
    number >> n
}

fn odd(number: i128) -> bool {
    modulo(number, 1) == 1
}

/// the low n bits
fn low(value: u32, n: u32) -> i128 {
    modulo(value.into(), n)
}

/// the number that the low n bits stand for with sign
fn signed(value: u32, n: u32) -> i128 {
    let v = low(value, n);
    if v < two(n - 1) { v } else { v - two(n) }
}

/// whether a signed number doesn't fit n bits
fn overflows(number: i128, n: u32) -> bool {
    number < -two(n - 1) || number >= two(n - 1)
}

fn wrap(number: i128, n: u32) -> u32 {
    modulo(number, n) as u32
}

/// the highest of the low n bits
fn top(value: u32, n: u32) -> bool {
    low(value, n) >= two(n - 1)
}

/// A result with its flags.
type Effect = (u32, Flags);

/// d + s + x, with Z of the result
fn add(d: u32, s: u32, x: bool, n: u32) -> Effect {
    let sum = low(d, n) + low(s, n) + i128::from(x);
    let result = wrap(sum, n);
    let carry = sum >= two(n);
    let v = overflows(signed(d, n) + signed(s, n) + i128::from(x), n);
    (result, Flags { x: carry, n: top(result, n), z: result == 0, v, c: carry })
}

/// d - s - x, with Z of the result
fn subtract(d: u32, s: u32, x: bool, n: u32) -> Effect {
    let difference = low(d, n) - low(s, n) - i128::from(x);
    let result = wrap(difference, n);
    let borrow = difference < 0;
    let v = overflows(signed(d, n) - signed(s, n) - i128::from(x), n);
    (result, Flags { x: borrow, n: top(result, n), z: result == 0, v, c: borrow })
}

/// Z is cleared by a nonzero result and otherwise kept
fn extended((result, after): Effect, before: Flags) -> Effect {
    (result, Flags { z: before.z && after.z, ..after })
}

/// the destination as handed in, the flags of the difference, X kept
fn compared(dst: u32, (_, after): Effect, before: Flags) -> Effect {
    (dst, Flags { x: before.x, ..after })
}

/// N, Z from the result at n bits, V = C = 0, X kept
fn logic(result: u32, n: u32, before: Flags) -> Effect {
    let z = low(result, n) == 0;
    (result, Flags { x: before.x, n: top(result, n), z, v: false, c: false })
}

fn arithmetic(r: Request, before: Flags) -> Effect {
    let n = r.size.bits();
    match r.op {
        Add | Addq => add(r.dst, r.src, false, n),
        Sub | Subq => subtract(r.dst, r.src, false, n),
        Cmp => compared(r.dst, subtract(r.dst, r.src, false, n), before),
        Addx => extended(add(r.dst, r.src, before.x, n), before),
        _ => extended(subtract(r.dst, r.src, before.x, n), before),
    }
}

/// 32 bits are used. ADDA, SUBA and CMPA extend a word with its sign; only CMPA touches the flags.
fn on_address(r: Request, before: Flags) -> Effect {
    let source = if r.size == Size::Word { wrap(signed(r.src, 16), 32) } else { r.src };
    match r.op {
        Adda => (add(r.dst, source, false, 32).0, before),
        Suba => (subtract(r.dst, source, false, 32).0, before),
        Cmpa => compared(r.dst, subtract(r.dst, source, false, 32), before),
        AddqA => (add(r.dst, r.src, false, 32).0, before),
        _ => (subtract(r.dst, r.src, false, 32).0, before),
    }
}

fn unary(r: Request, before: Flags) -> Effect {
    let n = r.size.bits();
    match r.op {
        Clr => logic(0, n, before),
        Neg => subtract(0, r.dst, false, n),
        Negx => extended(subtract(0, r.dst, before.x, n), before),
        Not => logic(wrap(two(n) - 1 - low(r.dst, n), n), n, before),
        _ if r.size == Size::Long => logic(wrap(signed(r.dst, 16), 32), 32, before),
        // EXT word: the upper half is kept
        _ => logic(r.dst / 65536 * 65536 + wrap(signed(r.dst, 8), 16), 16, before),
    }
}

/// whether the top bit changes at any of `count` single shifts to the left
fn top_changes(value: i128, n: u32, count: u32) -> bool {
    let top_after = |shifts| odd(over(value * two(shifts), n - 1));
    (0..count).any(|shifts| top_after(shifts) != top_after(shifts + 1))
}

/// ASL, ASR, LSL, LSR
fn shift(r: Request, before: Flags) -> Effect {
    let n = r.size.bits();
    let count = r.src % 64;
    if count == 0 {
        return logic(r.dst, n, before); // the value unmasked
    }
    let value = low(r.dst, n);
    let (whole, out) = match r.op {
        Asl | Lsl => (value * two(count), count <= n && odd(over(value * two(count), n))),
        Lsr => (over(value, count), odd(over(value, count - 1))),
        _ => (over(signed(r.dst, n), count), odd(over(signed(r.dst, n), count - 1))),
    };
    let result = wrap(whole, n);
    let v = r.op == Asl && top_changes(value, n, count);
    (result, Flags { x: out, n: top(result, n), z: result == 0, v, c: out })
}

/// ROL, ROR turn the bits; ROXL, ROXR the bits and, above them, X.
fn rotate(r: Request, before: Flags) -> Effect {
    let n = r.size.bits();
    let with_x = matches!(r.op, Roxl | Roxr);
    let places = n + u32::from(with_x);
    let count = r.src % 64;
    let ring = low(r.dst, n) + i128::from(with_x && before.x) * two(n);
    let turns = count % places;
    let left = if matches!(r.op, Rol | Roxl) { turns } else { places - turns };
    let turned = modulo(ring * two(left), places) + over(ring, places - left);
    let c = match r.op {
        Rol => count != 0 && odd(turned),
        Ror => count != 0 && turned >= two(n - 1),
        _ => turned >= two(n),
    };
    let result = wrap(turned, n);
    let x = if with_x { c } else { before.x };
    (result, Flags { x, n: top(result, n), z: result == 0, v: false, c })
}

fn bit(r: Request, before: Flags) -> Effect {
    let place = 1 << (r.src % 32);
    let was = r.dst / place % 2;
    let without = r.dst - was * place;
    let result = match r.op {
        Btst => r.dst,
        Bset => without + place,
        Bclr => without,
        _ => without + (1 - was) * place,
    };
    (result, Flags { z: was == 0, ..before })
}

fn check(r: Request, before: Flags) -> Effect {
    (r.dst, Flags { x: before.x, n: signed(r.dst, 16) < 0, z: false, v: false, c: false })
}

/// CHK's class: Pass 0, Over 1, Short 2, Below 3
fn class(r: Request) -> u8 {
    let (value, bound) = (signed(r.dst, 16), signed(r.src, 16));
    if value > bound {
        1
    } else if value < 0 && overflows(value - bound, 16) {
        2
    } else if value < 0 {
        3
    } else {
        0
    }
}

fn effect(r: Request, before: Flags) -> Effect {
    match r.op {
        Add | Sub | Cmp | Addx | Subx | Addq | Subq => arithmetic(r, before),
        Adda | Suba | Cmpa | AddqA | SubqA => on_address(r, before),
        Clr | Neg | Negx | Not | Ext => unary(r, before),
        Asl | Asr | Lsl | Lsr => shift(r, before),
        Rol | Ror | Roxl | Roxr => rotate(r, before),
        Btst | Bset | Bclr | Bchg => bit(r, before),
        Chk => check(r, before),
    }
}

fn figure(r: Request) -> u32 {
    let for_long = |long, other| if r.size == Size::Long { long } else { other };
    match r.op {
        Add | Sub | Cmp | Ext | Addx | Subx => 4,
        Adda | Suba | AddqA | SubqA => 8,
        Cmpa => 6,
        Addq | Subq => for_long(8, 4),
        Clr | Neg | Negx | Not => for_long(6, 4),
        Asl | Asr | Lsl | Lsr | Rol | Ror | Roxl | Roxr => for_long(8, 6) + 2 * (r.src % 64),
        Btst => 6,
        Bset | Bchg if r.src % 32 >= 16 => 8,
        Bset | Bchg => 6,
        Bclr => 10,
        Chk => [10, 8, 8, 10][usize::from(class(r))],
    }
}

/// The refusal number, if it is refused: 2 is tested before 1.
fn refusal(r: Request) -> Option<u8> {
    if !r.op.sizes().contains(&r.size) {
        Some(2)
    } else if matches!(r.op, Roxl | Roxr) && r.src > 63 {
        Some(1)
    } else {
        None
    }
}

/// The answer to any request.
pub fn answer(r: Request) -> Answer {
    if let Some(number) = refusal(r) {
        return Answer::refused(number, r.ccr);
    }
    let (result, after) = effect(r, Flags::of(r.ccr));
    let plain = Answer::accepted(result, after.ccr(), figure(r));
    if r.op == Chk { plain.with_class(class(r)) } else { plain }
}
