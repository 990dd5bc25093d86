//! The crate's answers: set registers and flags, call its `exec_*`, read registers and flags back.

use crate::core::cpu::CpuCore;
use crate::core::ea::AddressingMode;
use crate::core::exceptions::vector;
use crate::core::memory::AddressBus;
use crate::core::types::{CpuType, Size as CrateSize};
use crate::packed::{self, Answer, Op::*, Request, Size};

/// A bus that sums the internal clocks it is told of. 64 bits: `words` asks an operation 2^32 times.
#[derive(Default)]
struct Clocks {
    internal: u64,
}

impl AddressBus for Clocks {
    fn sync(&mut self, clocks: u32) {
        self.internal += u64::from(clocks);
    }
}

/// The crate's processor, ready for one register operation after the other.
pub struct Oracle {
    cpu: CpuCore,
    bus: Clocks,
}

/// Where the destination stands; the other registers hold `ELSEWHERE`.
const AT: usize = 3;
const DATA: AddressingMode = AddressingMode::DataDirect(AT as u8);
const ADDRESS: AddressingMode = AddressingMode::AddressDirect(AT as u8);
/// Even, so that CHK's trap may take it as a stack pointer.
const ELSEWHERE: u32 = 0x5A5A_A5A4;

impl Default for Oracle {
    fn default() -> Self {
        let mut cpu = CpuCore::new();
        cpu.set_cpu_type(CpuType::M68000);
        cpu.dar = [ELSEWHERE; 16];
        cpu.prefetch_count = 2; // a full queue: no operation reads the bus
        Oracle { cpu, bus: Clocks::default() }
    }
}

fn size_of(size: Size) -> CrateSize {
    match size {
        Size::Byte => CrateSize::Byte,
        Size::Word => CrateSize::Word,
        Size::Long => CrateSize::Long,
    }
}

// Inlined, so that a caller who knows the operation at compile time pays for no choice.
impl Oracle {
    /// The answer to an accepted request (the crate has no refusals). Figure 0: the crate returns none.
    /// Class 1 stands for Over or Short: the crate takes both by the same path.
    #[inline(always)]
    pub fn answer(&mut self, r: Request) -> Answer {
        self.cpu.set_ccr(r.ccr);
        match r.op {
            Add | Sub | Cmp | Addx | Subx => self.on_values(r),
            Asl | Asr | Lsl | Lsr | Rol | Ror | Roxl | Roxr => self.shift(r),
            Adda | Suba | Cmpa | AddqA | SubqA => self.on_address(r),
            Addq | Subq | Clr | Neg | Negx | Not | Ext | Btst | Bset | Bclr | Bchg => self.on_data(r),
            Chk => self.check(r),
        }
    }

    #[inline(always)]
    fn on_values(&mut self, r: Request) -> Answer {
        let (cpu, bus, size) = (&mut self.cpu, &mut self.bus, size_of(r.size));
        let (result, figure) = match r.op {
            Add => cpu.exec_add(bus, size, r.src, r.dst),
            Sub => cpu.exec_sub(bus, size, r.src, r.dst),
            Cmp => (r.dst, cpu.exec_cmp(size, r.src, r.dst)),
            Addx => (cpu.exec_addx(size, r.src, r.dst), 0),
            _ => (cpu.exec_subx(size, r.src, r.dst), 0),
        };
        Answer::accepted(result, self.flags(), figure as u32)
    }

    #[inline(always)]
    fn shift(&mut self, r: Request) -> Answer {
        let (cpu, size) = (&mut self.cpu, size_of(r.size));
        let (result, figure) = match r.op {
            Asl => cpu.exec_asl(size, r.src, r.dst),
            Asr => cpu.exec_asr(size, r.src, r.dst),
            Lsl => cpu.exec_lsl(size, r.src, r.dst),
            Lsr => cpu.exec_lsr(size, r.src, r.dst),
            Rol => cpu.exec_rol(size, r.src, r.dst),
            Ror => cpu.exec_ror(size, r.src, r.dst),
            Roxl => cpu.exec_roxl(size, r.src, r.dst),
            _ => cpu.exec_roxr(size, r.src, r.dst),
        };
        Answer::accepted(result, self.flags(), figure as u32)
    }

    #[inline(always)]
    fn on_address(&mut self, r: Request) -> Answer {
        let (cpu, bus, size) = (&mut self.cpu, &mut self.bus, size_of(r.size));
        cpu.set_a(AT, r.dst);
        let figure = match r.op {
            Adda => cpu.exec_adda(bus, size, r.src, AT),
            Suba => cpu.exec_suba(bus, size, r.src, AT),
            Cmpa => cpu.exec_cmpa(size, r.src, AT),
            AddqA => cpu.exec_addq(bus, size, r.src, ADDRESS),
            _ => cpu.exec_subq(bus, size, r.src, ADDRESS),
        };
        let result = cpu.a(AT);
        Answer::accepted(result, self.flags(), figure as u32)
    }

    #[inline(always)]
    fn on_data(&mut self, r: Request) -> Answer {
        let (cpu, bus, size) = (&mut self.cpu, &mut self.bus, size_of(r.size));
        cpu.set_d(AT, r.dst);
        let figure = match r.op {
            Addq => cpu.exec_addq(bus, size, r.src, DATA),
            Subq => cpu.exec_subq(bus, size, r.src, DATA),
            Clr => cpu.exec_clr(bus, size, DATA),
            Neg => cpu.exec_neg(bus, size, DATA),
            Negx => cpu.exec_negx(bus, size, DATA),
            Not => cpu.exec_not(bus, size, DATA),
            Ext => cpu.exec_ext(size, AT),
            Btst => cpu.exec_btst(bus, r.src, DATA),
            Bset => cpu.exec_bset(bus, r.src, DATA),
            Bclr => cpu.exec_bclr(bus, r.src, DATA),
            _ => cpu.exec_bchg(bus, r.src, DATA),
        };
        let after = cpu.d(AT);
        let mask = if r.op == Ext { u32::MAX } else { r.size.mask() };
        debug_assert_eq!(after & !mask, r.dst & !mask, "a sized write keeps the upper bits");
        Answer::accepted(after & mask, self.flags(), figure as u32)
    }

    /// CHK's class from what can be seen: the vector taken, the internal clocks, the return value.
    #[inline(always)]
    fn check(&mut self, r: Request) -> Answer {
        let cpu = &mut self.cpu;
        cpu.set_d(AT, r.dst);
        self.bus.internal = 0;
        let returned = cpu.exec_chk(&mut self.bus, size_of(r.size), r.src, AT);
        let internal = self.bus.internal + u64::from(std::mem::take(&mut cpu.pending_sync_clocks));
        let (class, figure) = match (cpu.last_exception_vector.take(), internal, returned) {
            (None, 6, 10) => (0, 10),
            (Some(vector::CHK), 8, 38) => (1, 8),
            (Some(vector::CHK), 10, 40) => (3, 10),
            other => panic!("CHK answered {other:?}"),
        };
        cpu.dar[15] = ELSEWHERE; // the trap pushed a frame
        let result = cpu.d(AT);
        Answer::accepted(result, self.flags(), figure).with_class(class)
    }

    /// The flags as set or clear. The crate has two readings of them, which must agree.
    #[inline(always)]
    fn flags(&self) -> u8 {
        let cpu = &self.cpu;
        let ccr = cpu.get_ccr();
        debug_assert_eq!(
            ccr,
            cpu.flag_x() as u8 * packed::X
                + cpu.flag_n() as u8 * packed::N
                + cpu.flag_z() as u8 * packed::Z
                + cpu.flag_v() as u8 * packed::V
                + cpu.flag_c() as u8 * packed::C
        );
        ccr
    }
}
