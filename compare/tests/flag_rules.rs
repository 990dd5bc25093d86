//! The crate's flag functions, called by themselves: on a result that is the sum or the difference, which
//! is what its operations hand them, they give the Manual's flags; on another result they take some
//! carries from the operands alone. docs/DIFFERENCES.md has these inputs.

use compare::core::cpu::CpuCore;
use compare::core::types::{CpuType, Size};
use compare::packed::flags_text;

/// The flags that `set` leaves of `ccr`.
fn after(ccr: u8, set: impl FnOnce(&mut CpuCore)) -> u8 {
    let mut cpu = CpuCore::new();
    cpu.set_cpu_type(CpuType::M68000);
    cpu.set_ccr(ccr);
    set(&mut cpu);
    cpu.get_ccr()
}

fn add(src: u32, dst: u32, result: u32, size: Size) -> String {
    flags_text(after(0, |cpu| cpu.set_add_flags(src, dst, result, size)))
}

fn sub(src: u32, dst: u32, result: u32, size: Size) -> String {
    flags_text(after(0, |cpu| cpu.set_sub_flags(src, dst, result, size)))
}

#[test]
fn a_result_that_is_one() {
    assert_eq!(add(0x01, 0xFF, 0x100, Size::Byte), "X-Z-C");
    assert_eq!(sub(0x01, 0x00, 0xFFFF_FFFF, Size::Byte), "XN--C");
}

/// By the Manual's rows Sm = 0, Dm = 1, Rm = 1 is no carry, and Sm = 0, Dm = 0, Rm = 1 is a borrow.
#[test]
fn a_result_that_is_none() {
    // 7F + 80 + X, as ADDX has it: a carry, which the crate's ADDX works out for itself
    assert_eq!(add(0x7F, 0x80, 0x00, Size::Byte), "--Z--");
    assert_eq!(add(0x01, 0xFF, 0xFF, Size::Byte), "XN--C");
    assert_eq!(add(0x01, 0xFFFF_FFFF, 0xFFFF_FFFF, Size::Long), "-N---");
    assert_eq!(sub(0x00, 0x00, 0x80, Size::Byte), "-N---");
    assert_eq!(sub(0x00, 0x00, 0x8000_0000, Size::Long), "XN--C");
}

/// The rule that 01 takes from the Manual: N and Z of the result at its size, V and C cleared, X kept.
#[test]
fn logic_flags_are_the_manuals() {
    let edges = [0x7FFF, 0x8000, 0xFFFF, 0x1_0000, 0x7FFF_FFFF, 0x8000_0000, 0xFFFF_FFFF];
    for ccr in 0..32 {
        for value in (0..512).chain(edges) {
            for (size, bits) in [(Size::Byte, 8), (Size::Word, 16), (Size::Long, 32)] {
                let low = u64::from(value) % (1u64 << bits);
                let n = low >= 1u64 << (bits - 1);
                let rule = (ccr & 16) + 8 * u8::from(n) + 4 * u8::from(low == 0);
                assert_eq!(after(ccr, |cpu| cpu.set_logic_flags(value, size)), rule);
            }
        }
    }
}
