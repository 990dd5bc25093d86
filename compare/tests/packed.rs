//! The packed convention, and the names of operations.

use compare::packed::{Answer, OPS, Op, SIZES, named};

#[test]
fn numbers_are_places() {
    assert!(OPS.iter().enumerate().all(|(place, op)| usize::from(op.number()) == place));
    assert_eq!(SIZES.map(|size| (size.number(), size.bits())), [(0, 8), (1, 16), (2, 32)]);
}

#[test]
fn fields_do_not_touch() {
    let answer = Answer::accepted(u32::MAX, 31, 255).with_class(3);
    assert_eq!((answer.result(), answer.ccr(), answer.figure()), (u32::MAX, 31, 255));
    assert_eq!((answer.verdict(), answer.class()), (0, 3));
    let refused = Answer::refused(2, 31);
    assert_eq!((refused.result(), refused.ccr(), refused.figure()), (0, 31, 0));
    assert_eq!((refused.verdict(), refused.class()), (2, 0));
}

#[test]
fn only_what_the_crate_says_is_compared() {
    let (four, none) = (Answer::accepted(1, 2, 4), Answer::accepted(1, 2, 0));
    assert_eq!(four.comparable(Op::Addx), none.comparable(Op::Addx));
    assert_ne!(four.comparable(Op::Add), none.comparable(Op::Add));
    let [over, short, below] = [1, 2, 3].map(|class| none.with_class(class).comparable(Op::Chk));
    assert_eq!(over, short);
    assert_ne!(over, below);
}

#[test]
fn operations_are_named_in_any_case() {
    assert_eq!(named(&[]), Ok(OPS.to_vec()));
    assert_eq!(named(&["ADDX".into(), "neg".into()]), Ok(vec![Op::Addx, Op::Neg]));
    assert!(named(&["add ".into()]).is_err());
}
