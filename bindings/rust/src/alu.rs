//! Single operations: values and flags in, an answer out.
//!
//! Each function stands for an `exec` function of the crate m68k 0.15.1 on its register form and an M68000. It takes values
//! in place of registers and a bus, the flags as an argument, and writes nothing: the caller puts the result where it
//! belongs, of a data register only the low bits of the size. Where the crate answers outside document 01's domain, there
//! is a refusal. `docs/DIFFERENCES.md` of the project has every difference.

use crate::operations::{AddressOp, BitOp, CHK, OneOp, QuickOp, ShiftOp, TwoOp};
use crate::sys::alu_call;
use crate::types::{Flags, Refusal, Size};

/// What an operation hands back.
#[derive(Clone, Copy, PartialEq, Eq, Hash, Debug)]
pub struct Answer {
    /// The result, masked to the size. EXT word has all 32 bits, the upper half kept; ASL, ASR, LSL and LSR by 0 return the
    /// value unmasked; CMP, CMPA, BTST and CHK return the destination as handed in.
    pub result: u32,
    /// The flags after the operation.
    pub flags: Flags,
    /// Document 01's clock figure. As a step six operations have another: long ADD, SUB, ADDX and SUBX 8 and long CMP 6, in
    /// place of 4; BCLR below bit 16 8, in place of 10.
    pub clocks: u32,
}

/// CHK's class. The last three are traps.
#[derive(Clone, Copy, PartialEq, Eq, Hash, Debug)]
pub enum Check {
    /// From 0 to the bound.
    Pass,
    /// Above the bound.
    Over,
    /// Below 0, and value - bound doesn't fit 16 bits: the 68000 traps on the short path of `Over`.
    Short,
    /// Below 0.
    Below,
}

/// What CHK hands back.
#[derive(Clone, Copy, PartialEq, Eq, Hash, Debug)]
pub struct Checked {
    /// Whether it traps, and how.
    pub check: Check,
    /// Flags and figure; the result is the value as handed in.
    pub answer: Answer,
}

fn check_of(class: u64) -> Check {
    match class & 3 {
        0 => Check::Pass,
        1 => Check::Over,
        2 => Check::Short,
        _ => Check::Below,
    }
}

/// An answer as the library packs it: the result, the flags from bit 32, the figure from 40, the refusal from 48.
fn unpacked(word: u64) -> Result<Answer, Refusal> {
    let byte = |at: u32| (word >> at) as u8;
    match Refusal::told(word >> 48 & 3) {
        Some(refusal) => Err(refusal),
        None => Ok(Answer { result: word as u32, flags: Flags::of(byte(32)), clocks: byte(40).into() }),
    }
}

fn call(operation: u8, size: Size, src: u32, dst: u32, flags: Flags) -> Result<Answer, Refusal> {
    unpacked(alu_call(operation, size.number(), src, dst, flags.ccr()))
}

macro_rules! functions {
    ($($(#[$doc:meta])* $name:ident($($operand:ident),*) = $number:expr, $src:expr, $dst:expr;)+) => {$(
        $(#[$doc])*
        pub fn $name(size: Size, $($operand: u32,)* flags: Flags) -> Result<Answer, Refusal> {
            call($number, size, $src, $dst, flags)
        }
    )+};
}

functions! {
    /// ADD: `dst + src`. C and X are the carry, V signed overflow. It takes every size.
    ///
    /// For the crate's `exec_add`, which returns result and figure, and leaves the flags in the processor.
    ///
    /// ```
    /// use gromavelush::{Flags, Size, exec_add};
    ///
    /// let answer = exec_add(Size::Byte, 0x01, 0xFF, Flags::default())?;
    /// assert_eq!((answer.result, answer.clocks), (0, 4));
    /// assert_eq!(answer.flags.to_string(), "X-Z-C");
    /// # Ok::<(), gromavelush::Refusal>(())
    /// ```
    exec_add(src, dst) = TwoOp::Add.number(), src, dst;

    /// ADDA: `dst + src` in 32 bits; a word source is extended with its sign. No flag is touched. A byte is refused with 2.
    ///
    /// For the crate's `exec_adda`, which writes the address register and takes a byte as a long.
    exec_adda(src, dst) = AddressOp::Adda.number(), src, dst;

    /// ADDQ on a data register: ADD with a figure of its own, 4, long 8. It takes every size and any `src`; a step refuses a
    /// small number outside 1 to 8.
    ///
    /// For the crate's `exec_addq` on `DataDirect`, which writes the register and polls for an interrupt.
    exec_addq(src, dst) = QuickOp::Addq.number(), src, dst;

    /// ADDQ on an address register: 32 bits, no flag is touched. A byte is refused with 2.
    ///
    /// For the crate's `exec_addq` on `AddressDirect`, which writes the register and takes a byte too.
    exec_addq_address(src, dst) = QuickOp::Addq.on_address(), src, dst;

    /// ADDX: `dst + src + X`. Z is cleared by a nonzero result and otherwise kept. It takes every size.
    ///
    /// For the crate's `exec_addx`, which returns no figure; 4 is document 01's.
    ///
    /// ```
    /// use gromavelush::{Flags, Size, exec_add, exec_addx};
    ///
    /// // 1_FFFFFFFF and 1: the low long words, then the high ones with the carry
    /// let low = exec_add(Size::Long, 1, 0xFFFF_FFFF, Flags::default())?;
    /// let high = exec_addx(Size::Long, 0, 1, low.flags)?;
    /// assert_eq!((high.result, low.result), (2, 0));
    /// # Ok::<(), gromavelush::Refusal>(())
    /// ```
    exec_addx(src, dst) = TwoOp::Addx.number(), src, dst;

    /// SUB: `dst - src`. C and X are the borrow, V signed overflow. It takes every size.
    ///
    /// For the crate's `exec_sub`, which returns result and figure, and leaves the flags in the processor.
    exec_sub(src, dst) = TwoOp::Sub.number(), src, dst;

    /// SUBA: `dst - src` in 32 bits; a word source is extended with its sign. No flag is touched. A byte is refused with 2.
    ///
    /// For the crate's `exec_suba`, which writes the address register and takes a byte as a long.
    exec_suba(src, dst) = AddressOp::Suba.number(), src, dst;

    /// SUBQ on a data register: SUB with a figure of its own, 4, long 8. It takes every size and any `src`; a step refuses a
    /// small number outside 1 to 8.
    ///
    /// For the crate's `exec_subq` on `DataDirect`, which writes the register and polls for an interrupt.
    exec_subq(src, dst) = QuickOp::Subq.number(), src, dst;

    /// SUBQ on an address register: 32 bits, no flag is touched. A byte is refused with 2.
    ///
    /// For the crate's `exec_subq` on `AddressDirect`, which writes the register and takes a byte too.
    exec_subq_address(src, dst) = QuickOp::Subq.on_address(), src, dst;

    /// SUBX: `dst - src - X`. Z is cleared by a nonzero result and otherwise kept. It takes every size.
    ///
    /// For the crate's `exec_subx`, which returns no figure; 4 is document 01's.
    exec_subx(src, dst) = TwoOp::Subx.number(), src, dst;

    /// CMP: the flags of `dst - src`, X kept; the result is `dst` as handed in. It takes every size.
    ///
    /// For the crate's `exec_cmp`, which returns the figure.
    exec_cmp(src, dst) = TwoOp::Cmp.number(), src, dst;

    /// CMPA: the flags of a long CMP; a word source is extended with its sign. A byte is refused with 2.
    ///
    /// For the crate's `exec_cmpa`, which reads the address register and takes a byte as a long.
    exec_cmpa(src, dst) = AddressOp::Cmpa.number(), src, dst;

    /// CLR: 0. N, V and C clear, Z set, X kept. It takes every size.
    ///
    /// For the crate's `exec_clr` on `DataDirect`, which writes the register.
    exec_clr() = OneOp::Clr.number(), 0, 0;

    /// NEG: `0 - dst`, with the flags of SUB. It takes every size.
    ///
    /// For the crate's `exec_neg` on `DataDirect`, which writes the register.
    exec_neg(dst) = OneOp::Neg.number(), 0, dst;

    /// NEGX: `0 - dst - X`. Z is cleared by a nonzero result and otherwise kept. It takes every size.
    ///
    /// For the crate's `exec_negx` on `DataDirect`, which writes the register.
    exec_negx(dst) = OneOp::Negx.number(), 0, dst;

    /// NOT: every bit turned over. N and Z of the result, V and C clear, X kept. It takes every size.
    ///
    /// For the crate's `exec_not` on `DataDirect`, which writes the register.
    exec_not(dst) = OneOp::Not.number(), 0, dst;

    /// EXT: a byte to a word (the upper half is kept in the result), or a word to a long. A byte is refused with 2.
    ///
    /// For the crate's `exec_ext`, which writes the register and takes a byte too.
    exec_ext(dst) = OneOp::Ext.number(), 0, dst;

    /// ASL by `shift` mod 64. V is set if the top bit changes at any single shift. It takes every size.
    ///
    /// For the crate's `exec_asl`, which leaves the flags in the processor.
    ///
    /// ```
    /// use gromavelush::{Flags, Size, exec_asl};
    ///
    /// let answer = exec_asl(Size::Byte, 8, 0x01, Flags::default())?;
    /// assert_eq!((answer.result, answer.clocks), (0, 22));
    /// assert_eq!(answer.flags.to_string(), "X-ZVC");
    /// # Ok::<(), gromavelush::Refusal>(())
    /// ```
    exec_asl(shift, value) = ShiftOp::Asl.number(), shift, value;

    /// ASR by `shift` mod 64. It takes every size.
    ///
    /// For the crate's `exec_asr`, which leaves the flags in the processor.
    exec_asr(shift, value) = ShiftOp::Asr.number(), shift, value;

    /// LSL by `shift` mod 64. It takes every size.
    ///
    /// For the crate's `exec_lsl`, which leaves the flags in the processor.
    exec_lsl(shift, value) = ShiftOp::Lsl.number(), shift, value;

    /// LSR by `shift` mod 64. It takes every size.
    ///
    /// For the crate's `exec_lsr`, which leaves the flags in the processor.
    exec_lsr(shift, value) = ShiftOp::Lsr.number(), shift, value;

    /// ROL by `shift` mod 64. X is kept. It takes every size.
    ///
    /// For the crate's `exec_rol`, which leaves the flags in the processor.
    exec_rol(shift, value) = ShiftOp::Rol.number(), shift, value;

    /// ROR by `shift` mod 64. X is kept. It takes every size.
    ///
    /// For the crate's `exec_ror`, which leaves the flags in the processor.
    exec_ror(shift, value) = ShiftOp::Ror.number(), shift, value;

    /// ROXL by `shift`, X among the bits that go round. It takes every size; a count above 63 is refused with 1.
    ///
    /// For the crate's `exec_roxl`, which leaves the flags in the processor and takes any count as it is.
    exec_roxl(shift, value) = ShiftOp::Roxl.number(), shift, value;

    /// ROXR by `shift`, X among the bits that go round. It takes every size; a count above 63 is refused with 1.
    ///
    /// For the crate's `exec_roxr`, which leaves the flags in the processor and takes any count as it is.
    exec_roxr(shift, value) = ShiftOp::Roxr.number(), shift, value;

    /// BTST of bit `number` mod 32: Z tells whether it was clear. Long only; another size is refused with 2.
    ///
    /// For the crate's `exec_btst` on `DataDirect`, which takes no size.
    exec_btst(number, value) = BitOp::Btst.number(), number, value;

    /// BSET of bit `number` mod 32: Z tells whether it was clear. Long only; another size is refused with 2.
    ///
    /// For the crate's `exec_bset` on `DataDirect`, which takes no size and writes the register.
    exec_bset(number, value) = BitOp::Bset.number(), number, value;

    /// BCLR of bit `number` mod 32: Z tells whether it was clear. Long only; another size is refused with 2.
    ///
    /// For the crate's `exec_bclr` on `DataDirect`, which takes no size and writes the register.
    exec_bclr(number, value) = BitOp::Bclr.number(), number, value;

    /// BCHG of bit `number` mod 32: Z tells whether it was clear. Long only; another size is refused with 2.
    ///
    /// For the crate's `exec_bchg` on `DataDirect`, which takes no size and writes the register.
    exec_bchg(number, value) = BitOp::Bchg.number(), number, value;
}

/// CHK: whether `value` is from 0 to `bound`, both signed words. N is set if it is below 0; Z, V and C are clear, X kept.
/// Word only; another size is refused with 2.
///
/// For the crate's `exec_chk`, which takes every size, and on a trap pushes a frame and enters the exception. Here a trap
/// is an answer with its class, and its figure is the internal clocks.
///
/// ```
/// use gromavelush::{Check, Flags, Size, exec_chk};
///
/// let checked = exec_chk(Size::Word, 5, 6, Flags::default())?;
/// assert_eq!((checked.check, checked.answer.clocks), (Check::Over, 8));
/// # Ok::<(), gromavelush::Refusal>(())
/// ```
pub fn exec_chk(size: Size, bound: u32, value: u32, flags: Flags) -> Result<Checked, Refusal> {
    let word = alu_call(CHK, size.number(), bound, value, flags.ccr());
    unpacked(word).map(|answer| Checked { check: check_of(word >> 52), answer })
}
