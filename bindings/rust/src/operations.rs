//! The operations by kind of form, with the numbers by which the library knows them.

use std::fmt::{self, Display, Formatter};

macro_rules! operations {
    ($($(#[$doc:meta])* $kind:ident: $($name:ident = $number:literal $text:literal),+;)+) => {$(
        $(#[$doc])*
        #[derive(Clone, Copy, PartialEq, Eq, Hash, Debug)]
        pub enum $kind {
            $(#[doc = concat!($text, ".")] $name = $number,)+
        }

        impl $kind {
            /// All of them, in the order of their numbers.
            pub const ALL: &[$kind] = &[$($kind::$name),+];

            pub(crate) fn number(self) -> u8 {
                self as u8
            }

            /// The one of that number.
            pub(crate) fn named(number: u8) -> Option<$kind> {
                $kind::ALL.iter().copied().find(|operation| operation.number() == number)
            }
        }

        /// The name in a printed step.
        impl Display for $kind {
            fn fmt(&self, f: &mut Formatter) -> fmt::Result {
                f.write_str(match self {
                    $($kind::$name => $text,)+
                })
            }
        }
    )+};
}

operations! {
    /// From a data register to a data register, at any size.
    TwoOp: Add = 0x00 "ADD", Sub = 0x01 "SUB", Cmp = 0x02 "CMP", Addx = 0x03 "ADDX", Subx = 0x04 "SUBX";
    /// From a register of either kind to an address register, word or long.
    AddressOp: Adda = 0x05 "ADDA", Suba = 0x06 "SUBA", Cmpa = 0x07 "CMPA";
    /// A small number 1 to 8 to a data register at any size, or to an address register, word or long.
    QuickOp: Addq = 0x08 "ADDQ", Subq = 0x09 "SUBQ";
    /// On one data register: any size, EXT word or long.
    OneOp: Clr = 0x0c "CLR", Neg = 0x0d "NEG", Negx = 0x0e "NEGX", Not = 0x0f "NOT", Ext = 0x10 "EXT";
    /// Shifts and rotates of a data register by a small number 1 to 8, or by a data register mod 64; any size.
    ShiftOp: Asl = 0x11 "ASL", Asr = 0x12 "ASR", Lsl = 0x13 "LSL", Lsr = 0x14 "LSR", Rol = 0x15 "ROL", Ror = 0x16 "ROR",
        Roxl = 0x17 "ROXL", Roxr = 0x18 "ROXR";
    /// On the bit of a data register that a small number 0 to 31 or a data register names; long.
    BitOp: Btst = 0x19 "BTST", Bset = 0x1a "BSET", Bclr = 0x1b "BCLR", Bchg = 0x1c "BCHG";
}

impl QuickOp {
    /// ADDQ and SUBQ on an address register have numbers of their own.
    pub(crate) fn on_address(self) -> u8 {
        self.number() + 2
    }
}

/// The number of CHK.
pub(crate) const CHK: u8 = 0x1d;
