//! Words of steps there and back, and what is printed.

use gromavelush::*;

use crate::common::{EXAMPLE, Random, copies, forms};

#[test]
fn every_form_there_and_back() {
    let forms = forms();
    assert_eq!(forms.len(), 1 + 5 + 2 * (3 + 2) + 5 + 2 * (8 + 4));
    for form in forms {
        for size in Size::ALL {
            for line in [0, 1, 2, 33, 128, 255] {
                let step = Step { size, form, line };
                assert_eq!(Step::try_from(step.word()), Ok(step));
                assert_eq!(u64::from(step), step.word());
                assert_eq!(step.word() >> 40, line.into());
            }
            assert_eq!(Step::new(size, form).with_line(9), Step { size, form, line: 9 });
            assert_eq!(Step::new(size, form).line, 0);
        }
    }
}

/// A word is read back exactly if it is the word of the step that it gives.
#[test]
fn any_word_is_a_steps_or_an_error() {
    let mut random = Random(3);
    let mut steps = 0;
    for _ in 0..500_000 {
        let word = match random.below(3) {
            0 => random.bits(),
            1 => random.bits() & 0xFF07_0703_031F,
            _ => random.bits() & 0xFFFF_FF03_031F,
        };
        match Step::try_from(word) {
            Ok(step) => {
                assert_eq!(step.word(), word);
                steps += 1;
            }
            Err(NoStep(told)) => assert_eq!(told, word),
        }
    }
    assert!(steps > 10_000, "{steps}");
    let add = Step::new(Size::Long, Form::Two(TwoOp::Add, D(0), D(2)));
    assert_eq!(Step::try_from(add.word() | 1 << 40), Ok(add.with_line(1)));
    for reserved in [1 << 48, 1 << 56, 1 << 63] {
        assert_eq!(Step::try_from(add.word() | reserved), Err(NoStep(add.word() | reserved)));
    }
}

/// The clocks of a step by itself, with all registers and flags 0.
fn at_rest(step: &Step) -> u64 {
    run(&Listing::new(&[*step]).expect("a step"), &mut State::default(), 0, 1).clocks
}

/// The library prints each step as `Display` does, and the sum of what they count at rest.
#[test]
fn steps_print_as_the_library_prints_them() {
    let mut random = Random(4);
    for form in forms() {
        let mut line = || random.bits() as u8;
        let steps: Vec<Step> = Size::ALL.iter().map(|&size| Step { size, form, line: line() }).collect();
        let listing = Listing::new(&steps).expect("three steps");
        let width = random.bits() as u8;
        let text = print(width, &listing);
        let lines: Vec<&str> = text.lines().collect();
        assert_eq!(lines[0], format!("width\t{width}\t3"));
        for (place, step) in steps.iter().enumerate() {
            assert_eq!(lines[1 + place], format!("{place}\t{step}"));
        }
        assert_eq!(lines[4..], [format!("clocks\t{}", steps.iter().map(at_rest).sum::<u64>())]);
    }
}

/// A bit's number from a register is 0 at rest.
#[test]
fn bclr_by_a_register_is_printed_with_8() {
    let step = Step::new(Size::Long, Form::Bit(BitOp::Bclr, Count::Data(D(1)), D(0)));
    let listing = Listing::new(&[step]).expect("a step");
    assert_eq!(print(1, &listing), "width\t1\t1\n0\tBCLR\tL\tD1\tD0\t0\nclocks\t8\n");
}

#[test]
fn document_01_s_example_is_printed_exactly() {
    let should = "width\t2\t4\n0\tADD\tL\tD0\tD2\t2\n1\tADDX\tL\tD1\tD3\t2\n2\tNEG\tL\t-\tD2\t3\n3\tNEGX\tL\t-\tD3\t3\nclocks\t28\n";
    assert_eq!(answer(EXAMPLE), should);
    let listing = translate(EXAMPLE).expect("it is sound");
    assert_eq!(print(2, &listing), should);
    let words = [0x0000_0202_0002_0200, 0x0000_0203_0102_0203, 0x0000_0302_0000_020D, 0x0000_0303_0000_020E];
    assert_eq!(listing.words(), words);
    let lines = vec![Line { verb: Verb::Add, a: 0, b: 1 }, Line { verb: Verb::Neg, a: 1, b: 0 }];
    assert_eq!(Recipe { width: 2, lines }.to_string().as_bytes(), EXAMPLE);
}

/// The lines of a recipe's steps, in what is printed and in the steps: text line k + 2 for line k from 0.
#[test]
fn steps_have_their_text_lines() {
    let printed = "width\t1\t3\n0\tCLR\tL\t-\tD1\t2\n1\tADD\tL\tD0\tD1\t2\n2\tCLR\tL\t-\tD0\t3\nclocks\t20\n";
    assert_eq!(answer(b"width\t1\ncopy\t0\t1\nclear\t0\n"), printed);
    let halved = translate(b"width\t4\nhalve\t1\n").expect("it is sound");
    let rows: Vec<String> = halved.steps().iter().map(Step::to_string).collect();
    assert_eq!(rows, ["ASR\tL\t#1\tD7\t2", "ROXR\tL\t#1\tD6\t2", "ROXR\tL\t#1\tD5\t2", "ROXR\tL\t#1\tD4\t2"]);
    for width in [1, 2, 4] {
        let listing = translate(&copies(width, MOST_LINES)).expect("it is sound");
        let lines = (2..).flat_map(|line| vec![line; 2 * usize::from(width)]);
        assert!(listing.steps().iter().map(|step| step.line).eq(lines.take(listing.steps().len())));
        assert_eq!(listing.steps().last().map(|step| step.line), Some(33));
    }
}

/// The longest line that can be printed, as often as it can be: nothing is left off.
#[test]
fn the_longest_listing_is_printed_whole() {
    let step = Step::new(Size::Long, Form::Address(AddressOp::Adda, Register::Address(A(255)), A(255)))
        .with_line(255);
    let text = print(255, &Listing::new(&[step; MOST_STEPS]).expect("not too many steps"));
    assert_eq!(text.lines().count(), 1 + MOST_STEPS + 1);
    assert!(text.ends_with(&format!("{}\tADDA\tL\tA255\tA255\t255\nclocks\t0\n", MOST_STEPS - 1)));
}

#[test]
fn a_listing_is_not_too_long() {
    let step = Step::new(Size::Long, Form::One(OneOp::Clr, D(0)));
    let steps = MOST_STEPS + 1;
    assert_eq!(Listing::new(&[step; MOST_STEPS + 1]), Err(TooLong { steps }));
    assert_eq!(Listing::new(&[step; MOST_STEPS]).map(|listing| listing.words().len()), Ok(MOST_STEPS));
}
