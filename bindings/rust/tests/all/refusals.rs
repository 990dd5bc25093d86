//! Every refusal is met here, with its line and column or its place, and changes nothing.

use gromavelush::*;

use crate::common::{EXAMPLE, Random, copies};
use crate::rows::rows;

const STATE: State = State {
    d: [1, 2, 3, 4, 5, 6, 7, 8],
    a: [9, 10, 11, 12, 13, 14, 15, 16],
    flags: Flags { x: true, n: false, z: true, v: false, c: true },
};

/// What a slot holds that nothing is laid into.
const MARK: Step = Step::new(Size::Word, Form::Chk(D(200), D(100)));

/// A text's refusal by the translator, which leaves the slots, as many or few as there are; by what is printed; and by a run
/// that leaves the state.
fn refused(text: &[u8], number: u8, line: usize, column: usize) {
    let refused = translate(text).expect_err("it is refused");
    let at = (refused.refusal.number(), refused.line, refused.column);
    assert_eq!(at, (number, line, column), "{}", text.escape_ascii());
    for length in [0, 1, RECIPE_STEPS] {
        let mut slots = vec![MARK; length];
        assert_eq!(translate_into(text, &mut slots), Err(refused));
        assert_eq!(slots, vec![MARK; length]);
    }
    assert_eq!(answer(text), format!("refused\t{number}\t{line}\t{column}\n"));
    let mut state = STATE;
    assert_eq!(run_text(text, &mut state), Err(refused));
    assert_eq!(state, STATE);
}

/// A step's refusal, at place 1 behind a step that is done. Its line is told.
fn step_refused(size: Size, form: Form, number: u8) {
    let first = Step::new(Size::Long, Form::One(OneOp::Not, D(0))).with_line(2);
    let listing = Listing::new(&[first, Step { size, form, line: 3 }, first]).expect("three steps");
    let mut state = STATE;
    let ran = run(&listing, &mut state, 0, 9);
    let End::Refused { refusal, place, line } = ran.end else { panic!("{:?}", ran.end) };
    assert_eq!((refusal.number(), place, line), (number, 1, 3));
    assert_eq!((ran.next, ran.steps, ran.clocks), (1, 1, 6));
    assert_eq!(state.d[0], !1);
    assert_eq!((&state.d[1..], state.a), (&STATE.d[1..], STATE.a));
}

#[test]
fn number_1_small_numbers_and_counts() {
    for shift in [64, 65, u32::MAX] {
        assert_eq!(exec_roxl(Size::Byte, shift, 1, STATE.flags), Err(Refusal::BadSmall));
        assert_eq!(exec_roxr(Size::Long, shift, 1, STATE.flags), Err(Refusal::BadSmall));
    }
    for small in [0, 9, 255] {
        step_refused(Size::Long, Form::Quick(QuickOp::Addq, small, Register::Data(D(1))), 1);
        step_refused(Size::Word, Form::Quick(QuickOp::Subq, small, Register::Address(A(1))), 1);
        step_refused(Size::Byte, Form::Shift(ShiftOp::Rol, Count::Small(small), D(1)), 1);
    }
    step_refused(Size::Long, Form::Bit(BitOp::Bset, Count::Small(32), D(1)), 1);
}

#[test]
fn number_2_sizes() {
    let (byte, word, long, flags) = (Size::Byte, Size::Word, Size::Long, STATE.flags);
    let on_address = [exec_adda, exec_suba, exec_cmpa, exec_addq_address, exec_subq_address];
    for function in on_address {
        assert_eq!(function(byte, 1, 2, flags), Err(Refusal::NoSuchSize));
    }
    for function in [exec_btst, exec_bset, exec_bclr, exec_bchg] {
        assert_eq!(function(byte, 1, 2, flags), Err(Refusal::NoSuchSize));
        assert_eq!(function(word, 1, 2, flags), Err(Refusal::NoSuchSize));
    }
    assert_eq!(exec_ext(byte, 2, flags), Err(Refusal::NoSuchSize));
    assert_eq!(exec_chk(byte, 1, 2, flags), Err(Refusal::NoSuchSize));
    assert_eq!(exec_chk(long, 1, 2, flags), Err(Refusal::NoSuchSize));
    step_refused(byte, Form::Address(AddressOp::Cmpa, Register::Data(D(1)), A(2)), 2);
    step_refused(byte, Form::Quick(QuickOp::Addq, 0, Register::Address(A(2))), 2);
    step_refused(byte, Form::One(OneOp::Ext, D(1)), 2);
    step_refused(word, Form::Bit(BitOp::Btst, Count::Small(99), D(1)), 2);
    step_refused(long, Form::Chk(D(1), D(2)), 2);
}

#[test]
fn number_2_words_that_name_no_step() {
    let mut random = Random(2);
    let mut met = 0;
    for _ in 0..20_000 {
        let word = random.bits() & random.bits() & 0xFFFF_FFFF_FFFF;
        // CLR and its like have no source, and take any number of one
        let without_source = word & !0xFF00_0000;
        if Step::try_from(word).is_err() && Step::try_from(without_source).is_err() {
            let ran = run_words(&[word], &mut STATE.clone(), 0, 9);
            let line = (word >> 40) as u8;
            assert_eq!(ran.end, End::Refused { refusal: Refusal::NoSuchSize, place: 0, line }, "{word:x}");
            met += 1;
        }
    }
    assert!(met > 10_000, "{met}");
}

#[test]
fn number_3_registers() {
    for at in [8, 9, 255] {
        step_refused(Size::Long, Form::Two(TwoOp::Add, D(at), D(1)), 3);
        step_refused(Size::Long, Form::Two(TwoOp::Add, D(1), D(at)), 3);
        step_refused(Size::Byte, Form::Address(AddressOp::Adda, Register::Data(D(at)), A(1)), 3);
        step_refused(Size::Byte, Form::Address(AddressOp::Adda, Register::Address(A(at)), A(1)), 3);
        step_refused(Size::Long, Form::Address(AddressOp::Adda, Register::Address(A(1)), A(at)), 3);
        step_refused(Size::Byte, Form::Quick(QuickOp::Subq, 0, Register::Address(A(at))), 3);
        step_refused(Size::Byte, Form::One(OneOp::Ext, D(at)), 3);
        step_refused(Size::Byte, Form::Shift(ShiftOp::Asl, Count::Data(D(at)), D(1)), 3);
        step_refused(Size::Byte, Form::Bit(BitOp::Bclr, Count::Small(32), D(at)), 3);
        step_refused(Size::Byte, Form::Chk(D(at), D(1)), 3);
    }
}

/// Document 01's texts, those that are refused and those that are not, as examples/refusals.tsv has them.
#[test]
fn texts_are_printed_or_refused() {
    for row in rows(concat!(env!("CARGO_MANIFEST_DIR"), "/../../examples/refusals.tsv")) {
        let printed = String::from_utf8(row.printed).expect("printed text");
        assert_eq!(answer(&row.text), printed, "{}", row.name);
        match printed.trim_end().split('\t').collect::<Vec<_>>()[..] {
            ["refused", number, line, column] => {
                let at = (number.parse().unwrap(), line.parse().unwrap(), column.parse().unwrap());
                refused(&row.text, at.0, at.1, at.2)
            }
            _ => assert!(translate(&row.text).is_ok(), "{}", row.name),
        }
    }
}

/// The text of a recipe made by hand.
fn by_hand(width: u8, lines: &[Line]) -> Vec<u8> {
    Recipe { width, lines: lines.to_vec() }.to_string().into_bytes()
}

fn line(verb: Verb, a: u8, b: u8) -> Line {
    Line { verb, a, b }
}

#[test]
fn number_4_widths_by_hand() {
    for width in (0..=u8::MAX).filter(|width| ![1, 2, 4].contains(width)) {
        refused(&by_hand(width, &[]), 4, 1, 0);
        refused(&by_hand(width, &[line(Verb::Copy, 9, 9)]), 4, 1, 0);
    }
}

/// A number above 9 isn't one digit.
#[test]
fn number_13_numbers_by_hand() {
    for number in 10..=u8::MAX {
        refused(&by_hand(1, &[line(Verb::Clear, 0, 0), line(Verb::Neg, number, 0)]), 13, 3, 5);
        refused(&by_hand(1, &[line(Verb::Copy, 1, number)]), 13, 2, 8);
        refused(&by_hand(4, &[line(Verb::Sub, number, number)]), 13, 2, 5);
    }
}

#[test]
fn numbers_6_and_7_by_hand() {
    for width in [1, 2, 4] {
        for number in 8 / width..=9 {
            for verb in Verb::ALL {
                refused(&by_hand(width, &[line(Verb::Up, 0, 0), line(verb, number, number)]), 6, 3, 0);
            }
            refused(&by_hand(width, &[line(Verb::Add, 0, number)]), 6, 2, 0);
        }
        for number in 0..8 / width {
            refused(&by_hand(width, &[line(Verb::Copy, number, number)]), 7, 2, 0);
        }
    }
    let kept = by_hand(1, &[line(Verb::Neg, 7, 255)]);
    assert_eq!(translate(&kept).map(|listing| listing.steps().len()), Ok(1));
}

/// At the line too many, whatever it is; a line before it is refused first.
#[test]
fn number_8_too_many_lines() {
    assert_eq!(translate(&copies(1, MOST_LINES)).map(|listing| listing.steps().len()), Ok(2 * MOST_LINES));
    for count in [MOST_LINES + 1, MOST_LINES + 2, 0x100, 5000] {
        refused(&copies(1, count), 8, MOST_LINES + 2, 0);
        let mut lines = vec![line(Verb::Not, 7, 0); MOST_LINES];
        lines.resize(count, line(Verb::Copy, 9, 99));
        refused(&by_hand(1, &lines), 8, MOST_LINES + 2, 0);
        lines[MOST_LINES - 1] = line(Verb::Copy, 3, 3);
        refused(&by_hand(1, &lines), 7, MOST_LINES + 1, 0);
    }
}

#[test]
fn number_9_slots_and_slots_past_the_listing() {
    let text = copies(4, MOST_LINES);
    for length in [0, 1, RECIPE_STEPS - 1] {
        let mut slots = vec![MARK; length];
        let refused = translate_into(&text, &mut slots);
        assert_eq!(refused, Err(Refused { refusal: Refusal::NoSpace, line: 0, column: 0 }));
        assert_eq!(slots, vec![MARK; length]);
    }
    for length in [RECIPE_STEPS, RECIPE_STEPS + 1, RECIPE_STEPS + 44] {
        let mut slots = vec![MARK; length];
        assert_eq!(translate_into(&text, &mut slots), Ok(RECIPE_STEPS));
        assert_eq!(slots[RECIPE_STEPS..], vec![MARK; length - RECIPE_STEPS]);
        assert_eq!(slots[..RECIPE_STEPS], *translate(&text).expect("the same").steps());
    }
    let mut slots = [MARK; 5];
    assert_eq!(translate_into(EXAMPLE, &mut slots), Ok(4));
    assert_eq!(slots[4], MARK);
    assert!(!slots[..4].contains(&MARK));
}

#[test]
fn number_10_start_places() {
    let step = Step::new(Size::Long, Form::One(OneOp::Not, D(0))).with_line(5);
    for length in [0, 1, MOST_STEPS] {
        let listing = Listing::new(&vec![step; length]).expect("not too many steps");
        for start in [length + 1, length + 2, usize::MAX] {
            let mut state = STATE;
            let ran = run(&listing, &mut state, start, 5);
            let end = End::Refused { refusal: Refusal::StartPastEnd, place: start, line: 0 };
            assert_eq!(ran, Ran { end, next: start, steps: 0, clocks: 0 });
            assert_eq!(state, STATE);
        }
        let end = run(&listing, &mut STATE.clone(), length, 0).end;
        assert_eq!(end, End::Finished);
    }
    let place = MOST_STEPS + 1;
    let ran = run_words(&[step.word(); MOST_STEPS + 44], &mut STATE.clone(), place, 5);
    assert_eq!(ran.end, End::Refused { refusal: Refusal::StartPastEnd, place, line: 0 });
}

#[test]
fn each_number_has_its_words() {
    let numbers: Vec<u8> = Refusal::ALL.iter().map(|refusal| refusal.number()).collect();
    assert_eq!(
        numbers,
        [1, 2, 3, 4, 6, 7, 8, 9, 10, 11, 12, 13, 14, 15],
        "document 01's without 5, and 02's as far as they are built"
    );
    for (refusal, number) in Refusal::ALL.iter().zip(numbers) {
        assert!(refusal.to_string().starts_with(&format!("refused with {number}: ")));
    }
    let refused = translate(b"width\t1\nneg\t8\n").expect_err("there is no number 8");
    assert!(refused.to_string().starts_with("line 2: refused with 6: there is no such number"));
    let refused = translate(b"width\t1\nneg\tx\n").expect_err("x is no digit");
    assert!(refused.to_string().starts_with("line 2, column 5: refused with 13: a number is one digit"));
    assert!(Refusal::TooManyLines.to_string().contains(&format!(" {MOST_LINES} lines")));
}
