//! Single operations: any operation, size and flag byte, any operands.

use crate::cases::Random;
use crate::document;
use crate::packed::{Answer, OPS, Op, Request, SIZES};
use crate::raw::alu_call;
use crate::tally::Tally;
use gromavelush as safe;
use gromavelush::{Flags, Refusal, Size};

/// A byte that is often below a limit.
fn byte(random: &mut Random, limit: usize) -> u8 {
    if random.below(8) == 0 { random.bits() as u8 } else { random.below(limit) as u8 }
}

/// What document 01 answers; an unknown operation or size is refused with 2.
fn wanted(operation: u8, size: u8, src: u32, dst: u32, ccr: u8) -> Answer {
    let (op, size) = (OPS.get(usize::from(operation)), SIZES.get(usize::from(size)));
    match (op, size) {
        (Some(&op), Some(&size)) => document::answer(Request { op, size, src, dst, ccr }),
        _ => Answer::refused(2, ccr),
    }
}

/// The safe function of an operation.
fn called(op: Op, size: Size, src: u32, dst: u32, flags: Flags) -> Result<(safe::Answer, u64), Refusal> {
    let function = match op {
        Op::Add => safe::exec_add,
        Op::Sub => safe::exec_sub,
        Op::Cmp => safe::exec_cmp,
        Op::Addx => safe::exec_addx,
        Op::Subx => safe::exec_subx,
        Op::Adda => safe::exec_adda,
        Op::Suba => safe::exec_suba,
        Op::Cmpa => safe::exec_cmpa,
        Op::Addq => safe::exec_addq,
        Op::Subq => safe::exec_subq,
        Op::AddqA => safe::exec_addq_address,
        Op::SubqA => safe::exec_subq_address,
        Op::Asl => safe::exec_asl,
        Op::Asr => safe::exec_asr,
        Op::Lsl => safe::exec_lsl,
        Op::Lsr => safe::exec_lsr,
        Op::Rol => safe::exec_rol,
        Op::Ror => safe::exec_ror,
        Op::Roxl => safe::exec_roxl,
        Op::Roxr => safe::exec_roxr,
        Op::Btst => safe::exec_btst,
        Op::Bset => safe::exec_bset,
        Op::Bclr => safe::exec_bclr,
        Op::Bchg => safe::exec_bchg,
        _ => return called_on_one(op, size, src, dst, flags),
    };
    function(size, src, dst, flags).map(|answer| (answer, 0))
}

/// Those of one operand, and CHK with its class.
fn called_on_one(
    op: Op,
    size: Size,
    src: u32,
    dst: u32,
    flags: Flags,
) -> Result<(safe::Answer, u64), Refusal> {
    let function = match op {
        Op::Neg => safe::exec_neg,
        Op::Negx => safe::exec_negx,
        Op::Not => safe::exec_not,
        Op::Ext => safe::exec_ext,
        Op::Clr => return safe::exec_clr(size, flags).map(|answer| (answer, 0)),
        _ => {
            let checked = safe::exec_chk(size, src, dst, flags)?;
            return Ok((checked.answer, checked.check as u64));
        }
    };
    function(size, dst, flags).map(|answer| (answer, 0))
}

/// A safe answer, packed as the C function packs it.
fn packed(answer: Result<(safe::Answer, u64), Refusal>, flags: Flags) -> u64 {
    match answer {
        Ok((answer, class)) => {
            let plain = Answer::accepted(answer.result, answer.flags.ccr(), answer.clocks);
            plain.with_class(class as u8).0
        }
        Err(refusal) => Answer::refused(refusal.number(), flags.ccr()).0,
    }
}

pub fn try_one(random: &mut Random, tally: &mut Tally) {
    let (operation, size) = (byte(random, 30), byte(random, 3));
    let (src, dst, ccr) = (random.number(), random.number(), random.bits() as u8);
    let src = if random.below(2) == 0 { src % 72 } else { src };
    let want = wanted(operation, size, src, dst, ccr & 31);
    let got = alu_call(operation, size, src, dst, ccr);
    tally.called("alu_call");
    tally.refused(want.verdict().into());
    tally.agrees(got == want.0, || {
        format!("{operation} {size} {src:x} {dst:x} {ccr:x}: {got:016x}, wanted {want}")
    });
    if let (Some(&op), Some(&size)) = (OPS.get(usize::from(operation)), Size::ALL.get(usize::from(size))) {
        let flags = Flags::of(ccr);
        let got = packed(called(op, size, src, dst, flags), flags);
        tally.called("exec_..");
        if op == Op::Chk {
            tally.class(want.class().into());
        }
        tally.agrees(got == want.0, || {
            format!("{op:?} {size:?} {src:x} {dst:x} {flags}: {got:016x}, wanted {want}")
        });
    }
}
