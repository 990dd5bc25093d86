//! Document 02's item 4, of the reading: which line a step comes from, and what tells it.

use compare::recipes::{LINES_MAX, Line, Recipe, SLOTS, Verb, answer, read, translate};
use compare::steps::{Bit, Class, Count, End, FIRST, Fault, Form, One, Quick, Ran, Register, Size, State};
use compare::steps::{Step, Two};
use compare::tuned;

/// The rows of steps that are printed for a text.
fn rows(text: &str) -> Vec<String> {
    let printed = answer(text.as_bytes());
    let rows: Vec<String> = printed.lines().map(str::to_string).collect();
    rows[1..rows.len() - 1].to_vec()
}

#[test]
fn the_line_is_printed_last() {
    let listing = "0\tADD\tL\tD0\tD2\t2\n1\tADDX\tL\tD1\tD3\t2\n2\tNEG\tL\t-\tD2\t3\n3\tNEGX\tL\t-\tD3\t3\n";
    let document_01 = format!("width\t2\t4\n{listing}clocks\t28\n");
    assert_eq!(answer(b"width\t2\nadd\t0\t1\nneg\t1\n"), document_01);
    assert_eq!(
        rows("width\t1\ncopy\t0\t1\nclear\t0\n"),
        ["0\tCLR\tL\t-\tD1\t2", "1\tADD\tL\tD0\tD1\t2", "2\tCLR\tL\t-\tD0\t3"]
    );
    let halves = ["0\tASR", "1\tROXR", "2\tROXR", "3\tROXR"].into_iter().zip([7, 6, 5, 4]);
    let halves: Vec<String> = halves.map(|(step, to)| format!("{step}\tL\t#1\tD{to}\t2")).collect();
    assert_eq!(rows("width\t4\nhalve\t1\n"), halves);
    assert_eq!(rows(&format!("width\t1\n{}", "neg\t0\n".repeat(32)))[31], "31\tNEG\tL\t-\tD0\t33");
    assert_eq!(rows("width\t1\n"), [""; 0]);
}

#[test]
fn a_recipe_made_by_hand_has_lines_too() {
    let lines = [Line { verb: Verb::Copy, a: 0, b: 1 }; LINES_MAX];
    let listing = translate(&Recipe { width: 4, count: LINES_MAX, lines }, SLOTS).unwrap();
    for (at, step) in listing.iter().enumerate() {
        assert_eq!(usize::from(step.line), at / 8 + 2);
    }
}

const ADDQ: Form = Form::Quick(Quick::Addq, 8, Register::Data(1));

/// ADDQ.W #8,D1; CHK.W D0,D1; CLR.W D1
fn trapping(lines: [u8; 3]) -> Vec<Step> {
    let forms = [ADDQ, Form::Chk(0, 1), Form::One(One::Clr, 1)];
    forms.into_iter().zip(lines).map(|(form, line)| Step { size: Size::Word, form, line }).collect()
}

/// ADD.L D0,D1; BSET.W #3,D0
fn refused(lines: [u8; 2]) -> [Step; 2] {
    let bset = Form::Bit(Bit::Bset, Count::Small(3), 0);
    let add = Step { size: Size::Long, form: Form::Two(Two::Add, 0, 1), line: lines[0] };
    [add, Step { size: Size::Word, form: bset, line: lines[1] }]
}

fn ran(listing: &[Step], d: [u32; 2], start: usize, budget: u32) -> (Ran, State) {
    let mut state = FIRST;
    state.d[..2].copy_from_slice(&d);
    (tuned::run(listing, &mut state, start, budget), state)
}

#[test]
fn a_trap_and_a_refusal_tell_the_line_at_their_place() {
    let (trapped, _) = ran(&trapping([7, 8, 9]), [10, 5], 0, 100);
    assert_eq!(trapped, Ran { end: End::Trapped(Class::Over, 1, 8), next: 2, steps: 2, clocks: 12 });
    assert_eq!(trapped.told(), [2, 1, 1, 2, 2, 12, 8, 0]);
    let at = |line| Ran { end: End::Refused(Fault::NoSize, 1, line), next: 1, steps: 1, clocks: 8 };
    let all = [[7, 8], [0, 0], [255, 255]].map(|lines| ran(&refused(lines), [1, 0], 0, 100));
    assert_eq!(all.map(|(ran, _)| ran), [at(8), at(0), at(255)]);
    assert!(all.iter().all(|(_, state)| *state == all[0].1));
    let (past, _) = ran(&refused([7, 8]), [1, 0], 3, 100);
    assert_eq!(past.end, End::Refused(Fault::StartPastEnd, 3, 0));
    assert_eq!(ran(&refused([7, 8]), [1, 0], 0, 1).0.told(), [1, 0, 0, 1, 1, 8, 0, 0]);
}

#[test]
fn a_word_has_its_line_in_byte_5() {
    let recipe = read(b"width\t2\nadd\t0\t1\nneg\t1\n").unwrap();
    let words: Vec<u64> = translate(&recipe, SLOTS).unwrap().iter().map(Step::word).collect();
    assert_eq!(words, [0x0202_0002_0200, 0x0203_0102_0203, 0x0302_0000_020D, 0x0303_0000_020E]);
    for word in words {
        assert_eq!(Step::named(word | 0xA5A5 << 48).map(|step| step.word()), Some(word));
    }
    // ADD without a source, and what it stands for
    assert_eq!(Step::named(0x0700_0000_0000), None);
    let (refused, _) = ran(&[Step::of_word(0x0700_0000_0000)], [0, 0], 0, 100);
    assert_eq!(refused.told(), [3, 2, 0, 0, 0, 0, 7, 0]);
}
