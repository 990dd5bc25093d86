//! The register set, and whole numbers in it.

use crate::sys::Registers;
use crate::types::Flags;
use std::error::Error;
use std::fmt::{self, Display, Formatter};
use std::ops::Range;

/// Eight data registers, eight address registers, five flags.
///
/// A whole number of width 1, 2 or 4 is that many data registers, the lowest first: number `k` of width `w` is D(kw) to
/// D(kw+w-1), and there are 8/w of them.
///
/// ```
/// use gromavelush::State;
///
/// let mut state = State::default();
/// state.set_number(2, 1, 0x0000_0001_FFFF_FFFF)?;
/// assert_eq!(state.d, [0, 0, 0xFFFF_FFFF, 1, 0, 0, 0, 0]);
/// assert_eq!(state.number(2, 1), Some(0x0000_0001_FFFF_FFFF));
/// assert_eq!(state.number(2, 4), None);
/// # Ok::<(), gromavelush::NotSet>(())
/// ```
#[derive(Clone, Copy, PartialEq, Eq, Hash, Default, Debug)]
pub struct State {
    /// The data registers D0 to D7.
    pub d: [u32; 8],
    /// The address registers A0 to A7.
    pub a: [u32; 8],
    /// The flags.
    pub flags: Flags,
}

/// Why [`State::set_number`] set nothing.
#[derive(Clone, Copy, PartialEq, Eq, Hash, Debug)]
pub enum NotSet {
    /// There is no such number: widths are 1, 2 and 4, and width w has the numbers 0 to 8/w - 1.
    NoSuchNumber,
    /// The value has more bits than the number.
    TooLarge,
}

impl Display for NotSet {
    fn fmt(&self, f: &mut Formatter) -> fmt::Result {
        f.write_str(match self {
            NotSet::NoSuchNumber => {
                "there is no such number; use width 1 with 0 to 7, width 2 with 0 to 3, or width 4 with 0 or 1"
            }
            NotSet::TooLarge => "the value does not fit the number; use a greater width",
        })
    }
}

impl Error for NotSet {}

/// The registers of a number, if there is such a number.
fn places(width: u8, k: u8) -> Option<Range<usize>> {
    let numbers = match width {
        1 | 2 | 4 => 8 / width,
        _ => 0,
    };
    let (width, k) = (usize::from(width), usize::from(k));
    (k < numbers.into()).then_some(k * width..(k + 1) * width)
}

impl State {
    /// The whole number `k` of that width; none if there is no such number.
    pub fn number(&self, width: u8, k: u8) -> Option<u128> {
        let registers = self.d.get(places(width, k)?)?;
        Some(registers.iter().rev().fold(0, |number, &register| number << 32 | u128::from(register)))
    }

    /// Sets the whole number `k` of that width. A number that isn't there, or a value of more than 32 bits for each of its
    /// registers, is an error, and nothing is set.
    pub fn set_number(&mut self, width: u8, k: u8, value: u128) -> Result<(), NotSet> {
        let registers = places(width, k).and_then(|places| self.d.get_mut(places));
        let registers = registers.ok_or(NotSet::NoSuchNumber)?;
        if width < 4 && value >> (32 * u32::from(width)) != 0 {
            return Err(NotSet::TooLarge);
        }
        for (at, register) in registers.iter_mut().enumerate() {
            *register = (value >> (32 * at)) as u32;
        }
        Ok(())
    }

    /// Lends the registers to a function of the library, and takes the flags back.
    pub(crate) fn lent<T>(&mut self, function: impl FnOnce(Registers) -> T) -> T {
        let mut flags = self.flags.ccr();
        let told = function(Registers { d: &mut self.d, a: &mut self.a, flags: &mut flags });
        self.flags = Flags::of(flags);
        told
    }
}
