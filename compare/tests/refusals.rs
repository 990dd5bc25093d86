//! The refusals of single operations, which the crate hasn't: of the reading of document 01.

use compare::document;
use compare::packed::{Answer, OPS, Op, Op::*, Request, SIZES, Size, Size::*};

fn reading(op: Op, size: Size, src: u32) -> Answer {
    document::answer(Request { op, size, src, dst: 0x1234_5678, ccr: 31 })
}

#[test]
fn a_size_outside_the_forms_table_is_refused() {
    for op in OPS {
        for size in SIZES {
            let answer = reading(op, size, 1);
            if op.sizes().contains(&size) {
                assert_eq!(answer.verdict(), 0, "{op:?} {size:?}");
            } else {
                assert_eq!(answer, Answer::refused(2, 31), "{op:?} {size:?}");
            }
        }
    }
}

#[test]
fn a_rotate_through_x_is_refused_above_63() {
    for (op, size, count) in [(Roxl, Byte, 64), (Roxr, Long, u32::MAX)] {
        assert_eq!(reading(op, size, 63).verdict(), 0);
        assert_eq!(reading(op, size, count), Answer::refused(1, 31));
    }
}

#[test]
fn other_counts_are_taken_mod_64() {
    for op in [Asl, Asr, Lsl, Lsr, Rol, Ror] {
        assert_eq!(reading(op, Word, 64 + 5), reading(op, Word, 5));
    }
}
