//! What the crate's files compiled here name of files that aren't, as small as the compiler lets it be.
//! README.md lists every item with the place that names it. What no register form on an M68000
//! reaches is empty or `unreachable!`, so that a run that strays out of the crate's text stops at once.

use crate::core::cpu::CpuCore;
use crate::core::ea::AddressingMode;
use crate::core::types::Size;

/// Modes that are only compared and set: any numbers will do of which the second isn't the first, since
/// the processor starts in the first.
pub mod execute {
    pub const RUN_MODE_NORMAL: u32 = 0;
    pub const RUN_MODE_BERR_AERR_RESET: u32 = 2;
    pub const STOP_LEVEL_STOP: u32 = 1;
}

/// The type of a table that stays `None`.
pub mod op_cache {
    #[derive(Debug)]
    pub struct CachedOp;
    pub const DECODE_TABLE_SIZE: usize = 1;
}

/// The type of fields that are only filled.
pub mod window {
    #[derive(Debug, Clone, Copy, Default)]
    pub struct Region;
    pub const NO_CODE_PAGE: u32 = u32::MAX;
}

/// The number that fills two fields.
pub mod trace_jit {
    pub const TRACE_PC_NONE: u32 = u32::MAX;
}

/// The 68060's timing, a field of the processor.
pub mod timing_060 {
    #[derive(Debug, Default)]
    pub struct Oep060Timing {
        pub branch_cache: BranchCache,
    }
    #[derive(Debug, Default)]
    pub struct BranchCache;
    impl BranchCache {
        pub fn clear_all(&mut self) {
            unreachable!()
        }
        pub fn clear_user(&mut self) {
            unreachable!()
        }
    }
}

/// The registers of the floating point unit, a field of the processor.
pub mod fpu {
    #[derive(Debug, Clone, Copy, Default)]
    pub struct FloatX80;
}

/// Address translation, which an M68000 hasn't: types of fields, and functions that it never calls.
pub mod mmu {
    use super::memory::AddressBus;
    use crate::core::cpu::CpuCore;

    #[derive(Debug, Default)]
    pub struct Atc;
    #[derive(Debug, Default)]
    pub struct Atc030;
    #[derive(Debug, Default)]
    pub struct ResidentMmu;
    impl Atc {
        pub fn flush_all(&mut self) {
            unreachable!()
        }
    }
    impl Atc030 {
        pub fn flush_all(&mut self) {
            unreachable!()
        }
        pub fn flush_fc(&mut self, _fc: u8, _mask: u8) {
            unreachable!()
        }
        pub fn flush_fc_page(&mut self, _fc: u8, _mask: u8, _addr: u32) {
            unreachable!()
        }
    }

    #[derive(Debug, Clone, Copy, PartialEq, Eq)]
    pub enum MmuFaultCause {
        PointerA,
        PointerB,
        Indirect,
        PageFault,
        WriteProtect,
        SupervisorProtect,
        TableWalkBusError,
        AccessBusError,
    }
    pub enum MmuFaultKind {
        BusError,
        ConfigurationError,
        IllegalOperation,
        AccessLevelViolation,
    }
    pub struct MmuFault {
        pub kind: MmuFaultKind,
        pub cause: MmuFaultCause,
        pub address: u32,
    }

    pub fn translate_address<B: AddressBus>(
        _cpu: &mut CpuCore,
        _bus: &mut B,
        _addr: u32,
        _write: bool,
        _supervisor: bool,
        _instruction: bool,
    ) -> Result<u32, MmuFault> {
        unreachable!()
    }
    pub fn ptest_030<B: AddressBus>(
        _cpu: &mut CpuCore,
        _bus: &mut B,
        _addr: u32,
        _fc: u32,
        _write: bool,
        _level: u32,
    ) -> (u16, u32) {
        unreachable!()
    }
    pub fn pload_030<B: AddressBus>(_cpu: &mut CpuCore, _bus: &mut B, _addr: u32, _fc: u8, _write: bool) {
        unreachable!()
    }
}

/// The bus.
pub mod memory {
    pub const MAX_FAST_MEM_REGIONS: usize = 1;

    pub enum BusFaultKind {
        BusError,
    }
    pub struct BusFault {
        pub kind: BusFaultKind,
    }

    /// The methods that the crate's text calls. Only `try_write_word` (CHK's stack frame), `sync` (internal
    /// clocks) and `ipl_hold_sample` (the interrupt poll) are reached.
    pub trait AddressBus {
        fn read_word(&mut self, _addr: u32) -> u16 {
            unreachable!()
        }
        fn read_long(&mut self, _addr: u32) -> u32 {
            unreachable!()
        }
        fn write_word(&mut self, _addr: u32, _value: u16) {
            unreachable!()
        }
        fn write_long(&mut self, _addr: u32, _value: u32) {
            unreachable!()
        }
        fn try_read_byte(&mut self, _addr: u32) -> Result<u8, BusFault> {
            unreachable!()
        }
        fn try_read_word(&mut self, _addr: u32) -> Result<u16, BusFault> {
            unreachable!()
        }
        fn try_read_three_bytes(&mut self, _addr: u32) -> Result<u32, BusFault> {
            unreachable!()
        }
        fn try_read_long(&mut self, _addr: u32) -> Result<u32, BusFault> {
            unreachable!()
        }
        fn try_read_immediate_word(&mut self, _addr: u32) -> Result<u16, BusFault> {
            unreachable!()
        }
        fn try_read_immediate_long(&mut self, _addr: u32) -> Result<u32, BusFault> {
            unreachable!()
        }
        fn try_write_byte(&mut self, _addr: u32, _value: u8) -> Result<(), BusFault> {
            unreachable!()
        }
        fn try_write_word(&mut self, _addr: u32, _value: u16) -> Result<(), BusFault> {
            Ok(())
        }
        fn try_write_three_bytes(&mut self, _addr: u32, _value: u32) -> Result<(), BusFault> {
            unreachable!()
        }
        fn try_write_long(&mut self, _addr: u32, _value: u32) -> Result<(), BusFault> {
            unreachable!()
        }
        fn begin_memory_copy(&mut self, _addr: u32, _bytes: u32) -> bool {
            unreachable!()
        }
        fn end_memory_copy(&mut self, _written: Option<u32>) {
            unreachable!()
        }
        fn sync(&mut self, clocks: u32);
        fn ipl_hold_sample(&mut self) {}
        fn ipl_hold_operand_sample(&mut self) {
            unreachable!()
        }
    }
}

/// LEA's timing.
pub mod timing {
    use crate::core::ea::AddressingMode;
    pub fn lea_ea_cycles_68000(_mode: AddressingMode) -> i32 {
        unreachable!()
    }
}

/// Methods of `CpuCore` that other files of the crate define.
impl CpuCore {
    // `set_cpu_type` clears these once, when the oracle is made; there is nothing to clear.
    pub(crate) fn clear_decoded_op_cache(&mut self) {}
    pub(crate) fn break_060_pipeline(&mut self) {}

    /// Notes the vector, by which the oracle sees a trap, and stays: there is no handler to go to.
    pub(crate) fn jump_vector<B: memory::AddressBus>(&mut self, _bus: &mut B, vector: u32) {
        self.last_exception_vector = Some(vector);
    }
    pub(crate) fn push_16<B: memory::AddressBus>(&mut self, _bus: &mut B, _value: u16) {
        unreachable!()
    }
    pub(crate) fn push_32<B: memory::AddressBus>(&mut self, _bus: &mut B, _value: u32) {
        unreachable!()
    }
    pub(crate) fn pull_32<B: memory::AddressBus>(&mut self, _bus: &mut B) -> u32 {
        unreachable!()
    }
    pub(crate) fn ea_time(&self, _mode: AddressingMode, _size: Size) -> i32 {
        unreachable!()
    }
}
