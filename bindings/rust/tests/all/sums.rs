//! Document 01's proved sums.

use gromavelush::Size::{Byte, Long, Word};
use gromavelush::*;

const NONE: Flags = Flags { x: false, n: false, z: false, v: false, c: false };
const X: Flags = Flags { x: true, ..NONE };
const XZ: Flags = Flags { x: true, z: true, ..NONE };

fn gives(answer: Result<Answer, Refusal>, result: u32, flags: &str, clocks: u32) {
    let answer = answer.expect("it is accepted");
    assert_eq!((answer.result, answer.flags.to_string().as_str(), answer.clocks), (result, flags, clocks));
}

#[test]
fn sums_1_and_2_add() {
    gives(exec_add(Byte, 0x01, 0x7F, NONE), 0x80, "-N-V-", 4);
    gives(exec_add(Byte, 0x01, 0xFF, NONE), 0x00, "X-Z-C", 4);
}

#[test]
fn sums_3_and_4_keep_z() {
    gives(exec_addx(Long, 0, 0xFFFF_FFFF, X), 0, "X---C", 4);
    gives(exec_addx(Long, 0, 0xFFFF_FFFF, XZ), 0, "X-Z-C", 4);
    gives(exec_subx(Byte, 0xFF, 0x00, X), 0, "X---C", 4);
    gives(exec_subx(Byte, 0xFF, 0x00, XZ), 0, "X-Z-C", 4);
}

#[test]
fn sum_5_neg() {
    gives(exec_neg(Byte, 0x80, NONE), 0x80, "XN-VC", 4);
}

#[test]
fn sums_6_to_10_shifts_and_rotates() {
    gives(exec_asl(Byte, 8, 0x01, NONE), 0x00, "X-ZVC", 22);
    gives(exec_asl(Byte, 9, 0x01, NONE), 0x00, "--ZV-", 24);
    gives(exec_asr(Byte, 9, 0x80, NONE), 0xFF, "XN--C", 24);
    gives(exec_lsl(Byte, 0, 0x1234, NONE), 0x1234, "-----", 6);
    gives(exec_lsl(Byte, 64, 0x1234, NONE), 0x1234, "-----", 6);
    gives(exec_rol(Byte, 8, 0x81, NONE), 0x81, "-N--C", 22);
    gives(exec_roxl(Word, 17, 0x8001, X), 0x8001, "XN--C", 40);
}

#[test]
fn sum_11_chk() {
    let class = |value, bound| exec_chk(Word, bound, value, NONE).expect("a word is accepted");
    assert_eq!(class(0x8000, 0x0001).check, Check::Short);
    assert_eq!(class(0x8000, 0x0000).check, Check::Below);
    let over = class(0xFFFF, 0xFFFE);
    assert_eq!((over.check, over.answer.flags.n, over.answer.clocks), (Check::Over, true, 8));
    let pass = class(5, 5);
    assert_eq!((pass.check, pass.answer.result, pass.answer.clocks), (Check::Pass, 5, 10));
}

#[test]
fn sum_12_the_recipe() {
    let mut state = State { d: [1, 0, 0xFFFF_FFFF, 0, 0, 0, 0, 0], ..State::default() };
    let ran = run_text(crate::common::EXAMPLE, &mut state).expect("it is a recipe");
    assert_eq!(state.d, [1, 0, 0, 0xFFFF_FFFF, 0, 0, 0, 0]);
    assert_eq!((ran.x, ran.steps, ran.clocks), (true, 4, 28));
    assert_eq!(ran.flags.map(|flags| flags.to_string()), Some("XN--C".into()));
}

/// Each function reaches the operation that it names: one value and figure of each that no other has.
#[test]
fn each_function_is_its_operation() {
    gives(exec_adda(Word, 0x8000, 0x1_0000, XZ), 0x8000, "X-Z--", 8);
    gives(exec_suba(Word, 0x8000, 0x1_0000, XZ), 0x1_8000, "X-Z--", 8);
    gives(exec_cmpa(Word, 0x8000, 0x1_0000, X), 0x1_0000, "X---C", 6);
    gives(exec_cmp(Byte, 1, 0x1200, X), 0x1200, "XN--C", 4);
    gives(exec_sub(Word, 1, 0, NONE), 0xFFFF, "XN--C", 4);
    gives(exec_addq(Long, 8, 0xFFFF_FFF8, NONE), 0, "X-Z-C", 8);
    gives(exec_subq(Word, 8, 7, NONE), 0xFFFF, "XN--C", 4);
    gives(exec_addq_address(Word, 8, 0xFFFF_FFF8, XZ), 0, "X-Z--", 8);
    gives(exec_subq_address(Long, 8, 7, XZ), 0xFFFF_FFFF, "X-Z--", 8);
    gives(exec_clr(Long, X), 0, "X-Z--", 6);
    gives(exec_negx(Byte, 0, XZ), 0xFF, "XN--C", 4);
    gives(exec_not(Word, 0xAAAA_0000, X), 0xFFFF, "XN---", 4);
    gives(exec_ext(Word, 0x1234_5680, X), 0x1234_FF80, "XN---", 4);
    gives(exec_lsr(Byte, 1, 0x81, NONE), 0x40, "X---C", 8);
    gives(exec_asr(Byte, 1, 0x81, NONE), 0xC0, "XN--C", 8);
    gives(exec_ror(Byte, 1, 0x01, NONE), 0x80, "-N--C", 8);
    gives(exec_roxr(Byte, 1, 0x02, X), 0x81, "-N---", 8);
    gives(exec_btst(Long, 33, 1, X), 1, "X-Z--", 6);
    gives(exec_bset(Long, 17, 0, X), 0x2_0000, "X-Z--", 8);
    gives(exec_bclr(Long, 0, 3, XZ), 2, "X----", 10);
    gives(exec_bchg(Long, 0, 3, XZ), 2, "X----", 6);
}
