//! Document 01's "Proved sums" 1 to 11, of the crate and of the reading of the document.

use compare::document;
use compare::oracle::Oracle;
use compare::packed::{Answer, Op, Op::*, Request, Size, Size::*, X, Z, flags_text};

/// The reading's answer, which must be the crate's too where the two are compared.
fn both(op: Op, size: Size, src: u32, dst: u32, ccr: u8) -> Answer {
    let r = Request { op, size, src, dst, ccr };
    let (by_crate, reading) = (Oracle::default().answer(r), document::answer(r));
    assert_eq!(by_crate.comparable(op), reading.comparable(op), "{r}");
    reading
}

/// Checks the result and the five flags.
fn gives(answer: Answer, result: u32, flags: &str) {
    assert_eq!((answer.result(), flags_text(answer.ccr()).as_str()), (result, flags), "{answer}");
}

#[test]
fn sums_1_and_2_add() {
    gives(both(Add, Byte, 0x01, 0x7F, 0), 0x80, "-N-V-");
    gives(both(Add, Byte, 0x01, 0xFF, 0), 0x00, "X-Z-C");
}

#[test]
fn sum_3_addx_keeps_z() {
    gives(both(Addx, Long, 0, 0xFFFF_FFFF, X), 0, "X---C");
    gives(both(Addx, Long, 0, 0xFFFF_FFFF, X | Z), 0, "X-Z-C");
}

#[test]
fn sum_4_subx_keeps_z() {
    gives(both(Subx, Byte, 0xFF, 0x00, X), 0, "X---C");
    gives(both(Subx, Byte, 0xFF, 0x00, X | Z), 0, "X-Z-C");
}

#[test]
fn sum_5_neg() {
    gives(both(Neg, Byte, 0, 0x80, 0), 0x80, "XN-VC");
}

#[test]
fn sum_6_asl_at_and_above_the_size() {
    gives(both(Asl, Byte, 8, 0x01, 0), 0x00, "X-ZVC");
    gives(both(Asl, Byte, 9, 0x01, 0), 0x00, "--ZV-");
}

#[test]
fn sum_7_asr_above_the_size() {
    gives(both(Asr, Byte, 9, 0x80, 0), 0xFF, "XN--C");
}

#[test]
fn sum_8_lsl_by_nothing_returns_the_raw_value() {
    for count in [0, 64] {
        gives(both(Lsl, Byte, count, 0x1234, 0), 0x1234, "-----");
    }
}

#[test]
fn sum_9_rol_by_its_size() {
    let answer = both(Rol, Byte, 8, 0x81, 0);
    gives(answer, 0x81, "-N--C");
    assert_eq!(answer.figure(), 22);
}

#[test]
fn sum_10_roxl_by_its_size_and_x() {
    let answer = both(Roxl, Word, 17, 0x8001, X);
    gives(answer, 0x8001, "XN--C");
    assert_eq!(answer.figure(), 40);
}

#[test]
fn sum_11_chk() {
    let class = |value, bound| both(Chk, Word, bound, value, 0).class();
    assert_eq!((class(0x8000, 0x0001), class(0x8000, 0x0000)), (2, 3));
    assert_eq!((class(0xFFFF, 0xFFFE), class(5, 5)), (1, 0));
    gives(both(Chk, Word, 0xFFFE, 0xFFFF, 0), 0xFFFF, "-N---");
}
