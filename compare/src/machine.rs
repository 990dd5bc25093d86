//! A plain Rust loop over step records, executed in place through the crate's exec functions. The crate has no refusals:
//! only listings of steps that are done are run here. ADDX and SUBX return no figure and count 4.

use crate::core::cpu::CpuCore;
use crate::core::ea::AddressingMode::{AddressDirect, DataDirect};
use crate::core::memory::AddressBus;
use crate::core::types::{CpuType, Size as CrateSize};
use crate::steps::*;

/// A bus that is told of internal clocks and does nothing.
struct Silent;

impl AddressBus for Silent {
    fn sync(&mut self, _clocks: u32) {}
}

/// The crate's processor with the registers of a state.
pub struct Machine {
    cpu: CpuCore,
    bus: Silent,
}

impl Size {
    fn of_crate(self) -> CrateSize {
        match self {
            Size::Byte => CrateSize::Byte,
            Size::Word => CrateSize::Word,
            Size::Long => CrateSize::Long,
        }
    }
}

impl Machine {
    pub fn new(state: State) -> Machine {
        let mut cpu = CpuCore::new();
        cpu.set_cpu_type(CpuType::M68000);
        cpu.prefetch_count = 2; // a full queue: no operation reads the bus
        for i in 0..8 {
            cpu.dar[i] = state.d[i];
            cpu.dar[8 + i] = state.a[i];
        }
        cpu.set_ccr(state.flags.ccr());
        Machine { cpu, bus: Silent }
    }

    pub fn state(&self) -> State {
        let cpu = &self.cpu;
        let flags =
            Flags { x: cpu.flag_x(), n: cpu.flag_n(), z: cpu.flag_z(), v: cpu.flag_v(), c: cpu.flag_c() };
        State { d: std::array::from_fn(|i| cpu.d(i)), a: std::array::from_fn(|i| cpu.a(i)), flags }
    }

    /// A sized write keeps the register's upper bits.
    #[inline]
    fn put(&mut self, size: Size, r: usize, value: u32) {
        let mask = size.mask();
        self.cpu.dar[r] = self.cpu.dar[r] & !mask | value & mask;
    }

    #[inline]
    fn count(&self, count: Count) -> u32 {
        match count {
            Count::Small(k) => u32::from(k),
            Count::Data(r) => self.cpu.dar[usize::from(r)] % 64,
        }
    }

    #[inline]
    fn two(&mut self, op: Two, size: Size, s: usize, t: usize) -> i32 {
        let (sized, src, dst) = (size.of_crate(), self.cpu.dar[s], self.cpu.dar[t]);
        let (result, figure) = match op {
            Two::Add => self.cpu.exec_add(&mut self.bus, sized, src, dst),
            Two::Sub => self.cpu.exec_sub(&mut self.bus, sized, src, dst),
            Two::Cmp => return self.cpu.exec_cmp(sized, src, dst),
            Two::Addx => (self.cpu.exec_addx(sized, src, dst), 4),
            Two::Subx => (self.cpu.exec_subx(sized, src, dst), 4),
        };
        self.put(size, t, result);
        figure
    }

    #[inline]
    fn shift(&mut self, op: Shift, size: Size, count: Count, t: usize) -> i32 {
        let (k, value) = (self.count(count), self.cpu.dar[t]);
        let (cpu, sized) = (&mut self.cpu, size.of_crate());
        let (result, figure) = match op {
            Shift::Asl => cpu.exec_asl(sized, k, value),
            Shift::Asr => cpu.exec_asr(sized, k, value),
            Shift::Lsl => cpu.exec_lsl(sized, k, value),
            Shift::Lsr => cpu.exec_lsr(sized, k, value),
            Shift::Rol => cpu.exec_rol(sized, k, value),
            Shift::Ror => cpu.exec_ror(sized, k, value),
            Shift::Roxl => cpu.exec_roxl(sized, k, value),
            Shift::Roxr => cpu.exec_roxr(sized, k, value),
        };
        self.put(size, t, result);
        figure
    }

    /// What a step's figure has above the one that the crate returns: document 02, item 3.
    fn above(&self, step: &Step) -> i32 {
        match (step.form, step.size) {
            (Form::Two(Two::Cmp, ..), Size::Long) => 2,
            (Form::Two(..), Size::Long) => 4,
            (Form::Bit(Bit::Bclr, count, _), _) if self.count(count) % 32 < 16 => -2,
            _ => 0,
        }
    }

    /// One step; the figure that the crate returns.
    #[inline]
    fn step(&mut self, step: &Step) -> i32 {
        let size = step.size.of_crate();
        match step.form {
            Form::Two(op, s, t) => self.two(op, step.size, usize::from(s), usize::from(t)),
            Form::Shift(op, count, t) => self.shift(op, step.size, count, usize::from(t)),
            Form::Address(op, place, t) => {
                let src = match place {
                    Register::Data(r) => self.cpu.dar[usize::from(r)],
                    Register::Address(r) => self.cpu.dar[8 + usize::from(r)],
                };
                match op {
                    Adr::Adda => self.cpu.exec_adda(&mut self.bus, size, src, usize::from(t)),
                    Adr::Suba => self.cpu.exec_suba(&mut self.bus, size, src, usize::from(t)),
                    Adr::Cmpa => self.cpu.exec_cmpa(size, src, usize::from(t)),
                }
            }
            Form::Quick(op, k, place) => {
                let target = match place {
                    Register::Data(r) => DataDirect(r),
                    Register::Address(r) => AddressDirect(r),
                };
                match op {
                    Quick::Addq => self.cpu.exec_addq(&mut self.bus, size, u32::from(k), target),
                    Quick::Subq => self.cpu.exec_subq(&mut self.bus, size, u32::from(k), target),
                }
            }
            Form::One(op, t) => match op {
                One::Clr => self.cpu.exec_clr(&mut self.bus, size, DataDirect(t)),
                One::Neg => self.cpu.exec_neg(&mut self.bus, size, DataDirect(t)),
                One::Negx => self.cpu.exec_negx(&mut self.bus, size, DataDirect(t)),
                One::Not => self.cpu.exec_not(&mut self.bus, size, DataDirect(t)),
                One::Ext => self.cpu.exec_ext(size, usize::from(t)),
            },
            Form::Bit(op, count, t) => {
                let k = self.count(count);
                match op {
                    Bit::Btst => self.cpu.exec_btst(&mut self.bus, k, DataDirect(t)),
                    Bit::Bset => self.cpu.exec_bset(&mut self.bus, k, DataDirect(t)),
                    Bit::Bclr => self.cpu.exec_bclr(&mut self.bus, k, DataDirect(t)),
                    Bit::Bchg => self.cpu.exec_bchg(&mut self.bus, k, DataDirect(t)),
                }
            }
            Form::Chk(s, t) => {
                let bound = self.cpu.dar[usize::from(s)];
                self.cpu.exec_chk(&mut self.bus, size, bound, usize::from(t))
            }
        }
    }

    /// A run of steps that are all done; `above` is added to the figure of each.
    #[inline(always)]
    fn run_adding(
        &mut self,
        listing: &[Step],
        start: usize,
        budget: u32,
        above: fn(&Machine, &Step) -> i32,
    ) -> Ran {
        let (mut next, mut steps, mut clocks) = (start, 0u32, 0u64);
        loop {
            let Some(step) = listing.get(next) else {
                return Ran { end: End::Finished, next, steps, clocks };
            };
            if steps == budget {
                return Ran { end: End::Budget, next, steps, clocks };
            }
            let above = above(self, step);
            clocks += (self.step(step) + above) as u64;
            next += 1;
            steps += 1;
        }
    }

    /// With the figures that the crate returns. It becomes part of its caller, as `tuned::run` does.
    #[inline(always)]
    pub fn run(&mut self, listing: &[Step], start: usize, budget: u32) -> Ran {
        self.run_adding(listing, start, budget, |_, _| 0)
    }

    /// With the figures of steps.
    pub fn run_with_figures(&mut self, listing: &[Step], start: usize, budget: u32) -> Ran {
        self.run_adding(listing, start, budget, Machine::above)
    }
}
