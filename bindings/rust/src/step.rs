//! Steps: document 01's forms, and the words in which the library takes them.

use crate::operations::{AddressOp, BitOp, CHK, OneOp, QuickOp, ShiftOp, TwoOp};
use crate::types::Size;
use std::error::Error;
use std::fmt::{self, Display, Formatter};

/// The number of a data register. A step with one above 7 is refused with 3.
#[derive(Clone, Copy, PartialEq, Eq, Hash, Debug)]
pub struct D(pub u8);

/// The number of an address register. A step with one above 7 is refused with 3.
#[derive(Clone, Copy, PartialEq, Eq, Hash, Debug)]
pub struct A(pub u8);

/// A register of either kind.
#[derive(Clone, Copy, PartialEq, Eq, Hash, Debug)]
pub enum Register {
    /// A data register.
    Data(D),
    /// An address register.
    Address(A),
}

/// A shift's count or a bit's number.
#[derive(Clone, Copy, PartialEq, Eq, Hash, Debug)]
pub enum Count {
    /// A small number: 1 to 8 for a shift, 0 to 31 for a bit. Another is refused with 1.
    Small(u8),
    /// What a data register holds: mod 64 for a shift, mod 32 for a bit.
    Data(D),
}

/// The forms of document 01, source before destination. No other operand kind can be written.
#[derive(Clone, Copy, PartialEq, Eq, Hash, Debug)]
pub enum Form {
    /// ADD, SUB, CMP, ADDX, SUBX from a data register to a data register.
    Two(TwoOp, D, D),
    /// ADDA, SUBA, CMPA from a register of either kind to an address register.
    Address(AddressOp, Register, A),
    /// ADDQ, SUBQ of a small number 1 to 8 to a register of either kind.
    Quick(QuickOp, u8, Register),
    /// CLR, NEG, NEGX, NOT, EXT of a data register.
    One(OneOp, D),
    /// A shift or rotate of a data register.
    Shift(ShiftOp, Count, D),
    /// A bit operation on a data register.
    Bit(BitOp, Count, D),
    /// CHK: the bound's data register, then the value's.
    Chk(D, D),
}

/// One step of a listing.
///
/// A step can be written with a size that its operation hasn't, a register above 7 or a small number out of range: the
/// machine refuses it where it is run, with 2, 3 or 1. The line changes nothing that a step does: it is printed, and told
/// where the step traps or is refused.
///
/// ```
/// use gromavelush::{D, Form, Size, Step, TwoOp};
///
/// let step = Step::new(Size::Long, Form::Two(TwoOp::Add, D(0), D(2)));
/// assert_eq!(step.to_string(), "ADD\tL\tD0\tD2\t0");
/// assert_eq!(step.word(), 0x02_00_02_02_00);
/// let step = step.with_line(7);
/// assert_eq!(step.to_string(), "ADD\tL\tD0\tD2\t7");
/// assert_eq!(step.word(), 0x07_02_00_02_02_00);
/// assert_eq!(Step::try_from(0x07_02_00_02_02_00), Ok(step));
/// ```
#[derive(Clone, Copy, PartialEq, Eq, Hash, Debug)]
pub struct Step {
    /// The size.
    pub size: Size,
    /// The operation and its operands.
    pub form: Form,
    /// The text line that it comes from, 0 if it comes from none: a recipe's first line is text line 2.
    pub line: u8,
}

/// A word that is not the word of any step.
#[derive(Clone, Copy, PartialEq, Eq, Hash, Debug)]
pub struct NoStep(
    /// The word.
    pub u64,
);

impl Display for NoStep {
    fn fmt(&self, f: &mut Formatter) -> fmt::Result {
        write!(f, "{:#018x} is not the word of a step", self.0)
    }
}

impl Error for NoStep {}

/// The kinds of a source in a word.
const NONE: u8 = 0;
const SMALL: u8 = 1;
const DATA: u8 = 2;
const ADDRESS: u8 = 3;

impl Register {
    fn kind_and_number(self) -> (u8, u8) {
        match self {
            Register::Data(D(number)) => (DATA, number),
            Register::Address(A(number)) => (ADDRESS, number),
        }
    }
}

impl Count {
    fn kind_and_number(self) -> (u8, u8) {
        match self {
            Count::Small(number) => (SMALL, number),
            Count::Data(D(number)) => (DATA, number),
        }
    }

    fn named(kind: u8, number: u8) -> Option<Count> {
        match kind {
            SMALL => Some(Count::Small(number)),
            DATA => Some(Count::Data(D(number))),
            _ => None,
        }
    }
}

impl Form {
    /// The operation's number, the source's kind and number, the destination's number.
    fn bytes(self) -> (u8, (u8, u8), u8) {
        match self {
            Form::Two(op, D(source), D(to)) => (op.number(), (DATA, source), to),
            Form::Address(op, source, A(to)) => (op.number(), source.kind_and_number(), to),
            Form::Quick(op, small, Register::Data(D(to))) => (op.number(), (SMALL, small), to),
            Form::Quick(op, small, Register::Address(A(to))) => (op.on_address(), (SMALL, small), to),
            Form::One(op, D(to)) => (op.number(), (NONE, 0), to),
            Form::Shift(op, count, D(to)) => (op.number(), count.kind_and_number(), to),
            Form::Bit(op, count, D(to)) => (op.number(), count.kind_and_number(), to),
            Form::Chk(D(bound), D(to)) => (CHK, (DATA, bound), to),
        }
    }

    /// The form that those bytes name, if they name one.
    fn named(operation: u8, kind: u8, source: u8, to: u8) -> Option<Form> {
        match (operation, kind) {
            (0x00..=0x04, DATA) => Some(Form::Two(TwoOp::named(operation)?, D(source), D(to))),
            (0x05..=0x07, DATA) => {
                Some(Form::Address(AddressOp::named(operation)?, Register::Data(D(source)), A(to)))
            }
            (0x05..=0x07, ADDRESS) => {
                Some(Form::Address(AddressOp::named(operation)?, Register::Address(A(source)), A(to)))
            }
            (0x08..=0x09, SMALL) => {
                Some(Form::Quick(QuickOp::named(operation)?, source, Register::Data(D(to))))
            }
            (0x0a..=0x0b, SMALL) => {
                Some(Form::Quick(QuickOp::named(operation - 2)?, source, Register::Address(A(to))))
            }
            (0x0c..=0x10, NONE) => Some(Form::One(OneOp::named(operation)?, D(to))),
            (0x11..=0x18, _) => {
                Some(Form::Shift(ShiftOp::named(operation)?, Count::named(kind, source)?, D(to)))
            }
            (0x19..=0x1c, _) => Some(Form::Bit(BitOp::named(operation)?, Count::named(kind, source)?, D(to))),
            (CHK, DATA) => Some(Form::Chk(D(source), D(to))),
            _ => None,
        }
    }
}

impl Step {
    /// What a word stands for in the library that names no step: a CHK of a byte, which is refused with 2.
    const REFUSED: Step = Step::new(Size::Byte, Form::Chk(D(0), D(0)));

    /// A step that comes from no text: its line is 0.
    pub const fn new(size: Size, form: Form) -> Step {
        Step { size, form, line: 0 }
    }

    /// The same step with another line.
    pub const fn with_line(self, line: u8) -> Step {
        Step { line, ..self }
    }

    /// The step's word: byte 0 (the lowest) the operation, 1 the size, 2 the source's kind, 3 the source's number, 4 the
    /// destination's number, 5 the line; 6 and 7 are reserved, and 0. `bindings/c/gromavelush.h` has the numbers.
    pub fn word(self) -> u64 {
        let (operation, (kind, source), to) = self.form.bytes();
        u64::from_le_bytes([operation, self.size.number(), kind, source, to, self.line, 0, 0])
    }

    /// The step that a word names. As in the library of today the reserved bytes don't count.
    fn named(word: u64) -> Option<Step> {
        let [operation, size, kind, source, to, line, ..] = word.to_le_bytes();
        let size = Size::ALL.get(usize::from(size)).copied()?;
        Some(Step { size, form: Form::named(operation, kind, source, to)?, line })
    }

    /// The step that the library runs for a word. Where the word names none it has the word's line all the same.
    pub(crate) fn of(word: u64) -> Step {
        let [.., line, _, _] = word.to_le_bytes();
        Step::named(word).unwrap_or(Step::REFUSED.with_line(line))
    }
}

/// The step of a word that [`Step::word`] gives. Any other word is an error: one that names no step, and one with
/// something in the reserved bytes, or in a source's number where there is no source.
impl TryFrom<u64> for Step {
    type Error = NoStep;

    fn try_from(word: u64) -> Result<Step, NoStep> {
        Step::named(word).filter(|step| step.word() == word).ok_or(NoStep(word))
    }
}

impl From<Step> for u64 {
    fn from(step: Step) -> u64 {
        step.word()
    }
}

impl Display for D {
    fn fmt(&self, f: &mut Formatter) -> fmt::Result {
        write!(f, "D{}", self.0)
    }
}

impl Display for A {
    fn fmt(&self, f: &mut Formatter) -> fmt::Result {
        write!(f, "A{}", self.0)
    }
}

impl Display for Register {
    fn fmt(&self, f: &mut Formatter) -> fmt::Result {
        match self {
            Register::Data(d) => d.fmt(f),
            Register::Address(a) => a.fmt(f),
        }
    }
}

impl Display for Count {
    fn fmt(&self, f: &mut Formatter) -> fmt::Result {
        match self {
            Count::Small(number) => write!(f, "#{number}"),
            Count::Data(d) => d.fmt(f),
        }
    }
}

/// Operation, size letter, source, destination and line with tabs between, as the program `recipe` prints them behind the
/// place.
impl Display for Step {
    fn fmt(&self, f: &mut Formatter) -> fmt::Result {
        let size = self.size;
        match self.form {
            Form::Two(op, source, to) => write!(f, "{op}\t{size}\t{source}\t{to}"),
            Form::Address(op, source, to) => write!(f, "{op}\t{size}\t{source}\t{to}"),
            Form::Quick(op, small, to) => write!(f, "{op}\t{size}\t#{small}\t{to}"),
            Form::One(op, to) => write!(f, "{op}\t{size}\t-\t{to}"),
            Form::Shift(op, count, to) => write!(f, "{op}\t{size}\t{count}\t{to}"),
            Form::Bit(op, count, to) => write!(f, "{op}\t{size}\t{count}\t{to}"),
            Form::Chk(bound, to) => write!(f, "CHK\t{size}\t{bound}\t{to}"),
        }?;
        write!(f, "\t{}", self.line)
    }
}

#[cfg(test)]
mod tests {
    use super::*;

    /// An ADD without a source, with a line and something in the reserved bytes.
    #[test]
    fn a_word_that_names_no_step_has_its_line() {
        assert_eq!(Step::of(0xABCD_0700_0000_0000), Step::REFUSED.with_line(7));
        assert!(Step::try_from(0x0000_0700_0000_0000).is_err());
    }
}
