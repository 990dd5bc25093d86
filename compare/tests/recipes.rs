//! Document 01's recipes, of the reading of the documents: examples, what the program reads of a long text, and what the
//! table of lines says of numbers, with the listings run by src/tuned.rs.

use compare::cases::Random;
use compare::recipes::{LINES_MAX, Line, Recipe, Refused, SLOTS, STEPS_MAX, Verb};
use compare::recipes::{answer, clocks, read, refused_alike, taken, translate};
use compare::refusals;
use compare::slips::{CASES, Slip};
use compare::steps::{End, FIRST, Ran, State};
use compare::texts::{KINDS, recipe};
use compare::tuned;

#[test]
fn texts_are_printed_or_refused() {
    for row in refusals::rows(concat!(env!("CARGO_MANIFEST_DIR"), "/../examples/refusals.tsv")) {
        assert_eq!(answer(&row.text).as_bytes(), row.printed, "{}", row.name);
    }
}

/// Document 02's item 1 says of the program that a line cut where it stops to read has no byte 10.
#[test]
fn the_program_cuts_a_long_line() {
    let text = |line: &str, times: usize, more: &str| {
        ["width\t1\n", line, &"0".repeat(times), more].concat().into_bytes()
    };
    for (text, whole, cut) in [
        (text("", 2000, "\n"), "11\t2\t1", "14\t2\t1017"),
        (text("", 2000, ""), "14\t2\t2001", "14\t2\t1017"),
        (text("neg\t", 1011, "\n"), "13\t2\t5", "13\t2\t5"),
        (text("neg\t", 1012, "\n"), "13\t2\t5", "14\t2\t1017"),
        (text("neg\t0\t", 1009, "\n"), "12\t2\t7", "12\t2\t7"),
        (text("neg\t0\t", 1010, "\n"), "12\t2\t7", "14\t2\t1017"),
        (text("neg\t0\nadd\t", 1010, "\n"), "12\t3\t1015", "14\t3\t1011"),
    ] {
        assert_eq!(answer(&text), format!("refused\t{whole}\n"), "{}", text.escape_ascii());
        assert_eq!(answer(taken(&text)), format!("refused\t{cut}\n"), "{}", text.escape_ascii());
    }
}

/// Of random texts, among which each case of src/slips.rs is met.
#[test]
fn a_cut_text_is_refused_as_the_whole_is() {
    let mut random = Random(1);
    let mut met = [0; CASES.len()];
    for kind in KINDS.iter().cycle().take(2000 * KINDS.len()) {
        let input = kind.text(&mut random);
        let text = taken(&input);
        let whole = (text.len() < input.len()).then(|| read(&input).expect_err("it is too long"));
        match (read(text), whole) {
            (Err(cut), whole) => {
                assert!(whole.is_none_or(|whole| refused_alike(&cut, &whole)), "{cut:?} {whole:?}");
                let slip = Slip::of(text, cut, whole);
                met.iter_mut().zip(&CASES).for_each(|(sum, case)| *sum += u32::from(slip.is(case)));
            }
            (Ok(_), whole) => assert_eq!(whole, None, "{}", text.escape_ascii()),
        }
    }
    for ((number, name, _), sum) in CASES.iter().zip(met) {
        assert!(sum > 0, "{number}: {name}");
    }
}

/// Of 11 to 14 alone there is a column: a field's first byte is behind its tab, and the early byte 10 is one.
#[test]
fn a_column_is_in_its_line() {
    let mut random = Random(2);
    for kind in KINDS.iter().cycle().take(500 * KINDS.len()) {
        let text = kind.text(&mut random);
        let Err(Refused { number, line, column }) = read(&text) else { continue };
        let bytes = text.split_inclusive(|&byte| byte == b'\n').nth(line - 1).unwrap_or_default();
        let good = match number {
            11 => column == 1,
            12 => bytes[column - 2] == b'\t' || bytes[column - 1] == b'\n',
            13 => bytes[column - 2] == b'\t',
            14 => column == bytes.len() + 1,
            _ => column == 0,
        };
        assert!(good, "{number} {line} {column}: {}", text.escape_ascii());
    }
}

#[test]
fn a_listing_is_too_short() {
    let full = Recipe {
        count: LINES_MAX,
        lines: [Line { verb: Verb::Copy, a: 0, b: 1 }; LINES_MAX],
        ..Recipe::empty(4)
    };
    assert_eq!(translate(&full, STEPS_MAX).map(|steps| steps.len()), Ok(STEPS_MAX));
    assert_eq!(translate(&full, STEPS_MAX - 1), Err(Refused { number: 9, line: 0, column: 0 }));
}

#[test]
fn sum_12() {
    let recipe = read(b"width\t2\nadd\t0\t1\nneg\t1\n").unwrap();
    let mut state = State { d: [1, 0, u32::MAX, 0, 0, 0, 0, 0], ..FIRST };
    tuned::run(&translate(&recipe, 4).unwrap(), &mut state, 0, u32::MAX);
    assert_eq!(state.d, [1, 0, 0, u32::MAX, 0, 0, 0, 0]);
    assert!(state.flags.x);
}

/// A number's value, of at most 128 bits.
fn value(state: &State, width: u8, number: u8) -> u128 {
    let registers = usize::from(number * width)..usize::from((number + 1) * width);
    state.d[registers].iter().rev().fold(0, |sum, &register| sum << 32 | u128::from(register))
}

fn changed(line: &Line, width: u8, a: u128, b: u128, x: bool) -> (u128, bool) {
    let bits = 32 * u32::from(width);
    let mask = u128::MAX >> (128 - bits);
    let top = a >> (bits - 1) & 1;
    match line.verb {
        Verb::Clear => (0, x),
        Verb::Copy => (a, false),
        Verb::Add => (b.wrapping_add(a) & mask, a > mask - b),
        Verb::Sub => (b.wrapping_sub(a) & mask, b < a),
        Verb::Neg => (a.wrapping_neg() & mask, a != 0),
        Verb::Not => (mask - a, x),
        Verb::Halve => (a >> 1 | top << (bits - 1), a % 2 == 1),
        Verb::Down => (a >> 1, a % 2 == 1),
        Verb::Up => (a << 1 & mask, top == 1),
    }
}

#[test]
fn listings_do_what_the_table_says() {
    let mut random = Random(1);
    let mut accepted = 0;
    for _ in 0..20_000 {
        let recipe = recipe(&mut random);
        let Ok(listing) = translate(&recipe, SLOTS) else { continue };
        accepted += 1;
        let mut state = FIRST;
        state.d = std::array::from_fn(|_| random.number());
        let width = recipe.width;
        let mut numbers: Vec<u128> = (0..8 / width).map(|number| value(&state, width, number)).collect();
        let mut x = state.flags.x;
        for line in &recipe.lines[..recipe.count] {
            let takes_two = matches!(line.verb, Verb::Copy | Verb::Add | Verb::Sub);
            let target = usize::from(if takes_two { line.b } else { line.a });
            let before = numbers[target];
            (numbers[target], x) = changed(line, width, numbers[usize::from(line.a)], before, x);
        }
        let Ran { end, clocks: sum, .. } = tuned::run(&listing, &mut state, 0, u32::MAX);
        assert!(matches!(end, End::Finished));
        assert_eq!(sum, clocks(&listing));
        assert_eq!(x, state.flags.x);
        let after: Vec<u128> = (0..8 / width).map(|number| value(&state, width, number)).collect();
        assert_eq!(after, numbers);
    }
    assert!(accepted > 5000);
}
