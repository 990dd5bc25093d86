//! The frozen lists: their form, and that the reading of document 01 gives the same answers.

use compare::document;
use compare::packed::{Answer, OPS, Op};
use compare::vectors::{LINES, requests, text};

const LINE: usize = 43;

/// The field of `digits` hex digits at a byte of a line.
fn field(line: &str, at: usize, digits: usize) -> u32 {
    u32::from_str_radix(&line[at..at + digits], 16).expect("hex digits")
}

#[test]
fn a_list_has_lines_of_one_length_and_fits_a_file() {
    for op in OPS {
        let text = text(op);
        assert_eq!(text.len(), LINES * LINE);
        assert!(text.len() <= 65536);
        assert!(text.lines().all(|line| line.len() + 1 == LINE), "{op:?}");
    }
}

#[test]
fn a_list_has_only_requests_of_the_domain() {
    for op in OPS {
        assert!(requests(op).iter().all(|r| r.in_domain()), "{op:?}");
    }
}

/// Each size of the operation; at each all 32 settings of the flags, and the numbers at which its sign
/// and its carry change.
#[test]
fn a_list_covers_sizes_settings_and_boundaries() {
    for op in OPS {
        for &size in op.sizes() {
            let asked: Vec<_> = requests(op).into_iter().filter(|r| r.size == size).collect();
            let top = size.mask() / 2 + 1;
            assert!((0..32).all(|ccr| asked.iter().any(|r| r.ccr == ccr)), "{op:?} {size:?}");
            for value in [0, 1, top - 1, top, top + 1, size.mask()] {
                assert!(asked.iter().any(|r| r.dst == value), "{op:?} {size:?} {value:X}");
            }
        }
    }
}

#[test]
fn a_list_holds_what_the_reading_answers() {
    for op in OPS {
        for (r, line) in requests(op).into_iter().zip(text(op).lines()) {
            assert_eq!((field(line, 5, 8), field(line, 14, 8)), (r.src, r.dst));
            let answer = Answer::accepted(field(line, 26, 8), field(line, 35, 2) as u8, field(line, 38, 2))
                .with_class(field(line, 41, 1) as u8);
            assert_eq!(answer.comparable(op), document::answer(r).comparable(op), "{r}");
        }
    }
}

#[test]
fn the_extended_operations_have_no_figure() {
    for op in [Op::Addx, Op::Subx] {
        assert!(text(op).lines().all(|line| field(line, 38, 2) == 0xFF));
    }
}
