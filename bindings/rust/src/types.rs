//! Sizes, flags and refusals.

use crate::limits::{MOST_BOXES, MOST_LINES, MOST_STEPS, RECIPE_STEPS};
use std::error::Error;
use std::fmt::{self, Display, Formatter};

/// The size of an operation: 8, 16 or 32 bits.
#[derive(Clone, Copy, PartialEq, Eq, Hash, Debug)]
pub enum Size {
    /// 8 bits.
    Byte,
    /// 16 bits.
    Word,
    /// 32 bits.
    Long,
}

impl Size {
    /// The three sizes. A size's place here is its number in the library's words.
    pub const ALL: [Size; 3] = [Size::Byte, Size::Word, Size::Long];

    /// As many bits as the size has.
    ///
    /// ```
    /// assert_eq!(gromavelush::Size::Word.bits(), 16);
    /// ```
    pub fn bits(self) -> u32 {
        8 << self.number()
    }

    pub(crate) fn number(self) -> u8 {
        self as u8
    }
}

/// The size letter of a printed step: B, W or L.
impl Display for Size {
    fn fmt(&self, f: &mut Formatter) -> fmt::Result {
        f.write_str(match self {
            Size::Byte => "B",
            Size::Word => "W",
            Size::Long => "L",
        })
    }
}

/// The condition codes of the 68000.
///
/// ```
/// use gromavelush::Flags;
///
/// let flags = Flags { x: true, c: true, ..Flags::default() };
/// assert_eq!(flags.ccr(), 0b10001);
/// assert_eq!(Flags::of(0b10001), flags);
/// assert_eq!(flags.to_string(), "X---C");
/// ```
#[derive(Clone, Copy, PartialEq, Eq, Hash, Default, Debug)]
pub struct Flags {
    /// Extend: the carry that ADDX, SUBX, NEGX, ROXL and ROXR take in.
    pub x: bool,
    /// Negative: the result's top bit.
    pub n: bool,
    /// Zero.
    pub z: bool,
    /// Signed overflow.
    pub v: bool,
    /// Carry or borrow.
    pub c: bool,
}

impl Flags {
    /// The flags of a byte: X 16, N 8, Z 4, V 2, C 1. Higher bits don't count.
    pub fn of(ccr: u8) -> Flags {
        let set = |weight| ccr & weight != 0;
        Flags { x: set(16), n: set(8), z: set(4), v: set(2), c: set(1) }
    }

    /// The flags as such a byte, the low half of the 68000's status register.
    pub fn ccr(self) -> u8 {
        let weighed = [(self.x, 16), (self.n, 8), (self.z, 4), (self.v, 2), (self.c, 1)];
        weighed.into_iter().filter(|(flag, _)| *flag).map(|(_, weight)| weight).sum()
    }
}

/// Five letters, a dash for a flag that is clear.
impl Display for Flags {
    fn fmt(&self, f: &mut Formatter) -> fmt::Result {
        let letters = [(self.x, 'X'), (self.n, 'N'), (self.z, 'Z'), (self.v, 'V'), (self.c, 'C')];
        letters.into_iter().try_for_each(|(flag, letter)| write!(f, "{}", if flag { letter } else { '-' }))
    }
}

/// What the library tells isn't known here. To go on would be to guess.
#[cold]
pub(crate) fn other_version(what: &str, number: u64) -> ! {
    panic!(
        "libgromavelush.a tells {what} {number}, which the package gromavelush hasn't: \
         they are of DIFFERENT VERSIONS; build both of one tree"
    )
}

macro_rules! refusals {
    ($($name:ident = $number:literal $why:literal, $to_do:literal;)+) => {
        /// Why something is refused: the numbers of documents 01 and 02. What is refused changes nothing.
        ///
        /// ```
        /// use gromavelush::{Flags, Refusal, Size, exec_ext};
        ///
        /// let refusal = exec_ext(Size::Byte, 0x80, Flags::default()).unwrap_err();
        /// assert_eq!(refusal, Refusal::NoSuchSize);
        /// assert_eq!(refusal.number(), 2);
        /// ```
        #[derive(Clone, Copy, PartialEq, Eq, Hash, Debug)]
        pub enum Refusal {
            $(#[doc = concat!($number, ": ", $why, ".")] $name = $number,)+
        }

        impl Refusal {
            /// All of them, in the order of their numbers.
            pub const ALL: &[Refusal] = &[$(Refusal::$name),+];
        }

        /// The number, and what to do.
        impl Display for Refusal {
            fn fmt(&self, f: &mut Formatter) -> fmt::Result {
                write!(f, "refused with {}: ", self.number())?;
                match self {
                    $(Refusal::$name => write!(f, $to_do),)+
                }
            }
        }
    };
}

// name and number; why; what to do
refusals! {
    BadSmall = 1 "ROXL or ROXR is called with a count above 63, or a step's small number is out of its range",
        "a small number is out of its range; use 1 to 8, for a bit 0 to 31, for a call of ROXL or ROXR 0 to 63";
    NoSuchSize = 2 "the operation hasn't that size, or a word names no step",
        "the operation hasn't this size, or the word names no step; use a size that it has";
    NoSuchRegister = 3 "a register number above 7",
        "there is no such register; use 0 to 7";
    WidthLine = 4 "the width line isn't `width`, a tab, and 1, 2 or 4",
        "the width line is wrong; begin with `width`, a tab, and 1, 2 or 4";
    NoSuchNumber = 6 "a digit that names no number at this width",
        "there is no such number; use 0 to 7 at width 1, 0 to 3 at width 2, 0 or 1 at width 4";
    OntoItself = 7 "a number is copied onto itself",
        "a number can't be copied onto itself; leave the line out";
    TooManyLines = 8 "more recipe lines than [`MOST_LINES`]",
        "the recipe has more than {MOST_LINES} lines; make two of it";
    NoSpace = 9 "there are fewer slots than the recipe's listing has steps",
        "the listing has too few slots; {RECIPE_STEPS} are enough for any recipe";
    StartPastEnd = 10 "a run's start place is past the listing's end",
        "the start place is past the end of the listing; a listing ends at {MOST_STEPS}";
    UnknownVerb = 11 "an unknown verb",
        "there is no such verb; use clear, copy, add, sub, neg, not, halve, down or up";
    WrongFields = 12 "too few or too many fields",
        "there are too few or too many fields; give copy, add and sub two numbers, any other verb one, each behind one tab";
    NotADigit = 13 "a field that isn't one digit",
        "a number is one digit; write nothing else between the tabs";
    NoNewline = 14 "a line without byte 10",
        "the line has no end; end each line with byte 10, the last too";
    TooManyBoxes = 15 "a rack has more boxes than [`MOST_BOXES`], or a row too short for them",
        "there are more than {MOST_BOXES} boxes, or a row is too short for them; make two racks of it, or the row longer";
}

impl Refusal {
    /// Its number.
    pub fn number(self) -> u8 {
        self as u8
    }

    /// The refusal of that number. One that isn't here is a fault of the build, and no acceptance.
    pub(crate) fn of(number: u64) -> Refusal {
        let found = Refusal::ALL.iter().find(|refusal| u64::from(refusal.number()) == number);
        *found.unwrap_or_else(|| other_version("the refusal", number))
    }

    /// What the library tells: 0 is acceptance.
    pub(crate) fn told(number: u64) -> Option<Refusal> {
        (number != 0).then(|| Refusal::of(number))
    }
}

impl Error for Refusal {}

#[cfg(test)]
mod tests {
    use super::*;
    use std::panic::catch_unwind;

    #[test]
    fn a_refusal_is_found_by_its_number() {
        assert_eq!(Refusal::told(0), None);
        for &refusal in Refusal::ALL {
            assert_eq!(Refusal::told(refusal.number().into()), Some(refusal));
        }
    }

    #[test]
    fn a_number_that_no_refusal_has_is_no_acceptance() {
        let known: Vec<u64> = Refusal::ALL.iter().map(|refusal| refusal.number().into()).collect();
        let others = (1..600).chain([1 << 32, (1 << 32) + 1, u64::MAX]);
        for number in others.filter(|number| !known.contains(number)) {
            let said = catch_unwind(|| Refusal::told(number)).expect_err("it is loud");
            let said = said.downcast_ref::<String>().expect("words");
            assert!(said.contains("DIFFERENT VERSIONS") && said.contains(&format!(" {number},")), "{said}");
        }
    }
}
