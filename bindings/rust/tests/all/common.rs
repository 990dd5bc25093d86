//! What several tests use.

use gromavelush::*;

/// The generator splitmix64.
pub struct Random(pub u64);

impl Random {
    pub fn bits(&mut self) -> u64 {
        self.0 = self.0.wrapping_add(0x9E37_79B9_7F4A_7C15);
        let mut z = self.0;
        z = (z ^ (z >> 30)).wrapping_mul(0xBF58_476D_1CE4_E5B9);
        z = (z ^ (z >> 27)).wrapping_mul(0x94D0_49BB_1331_11EB);
        z ^ (z >> 31)
    }

    pub fn below(&mut self, limit: u64) -> u64 {
        self.bits() % limit
    }

    pub fn pick<T: Copy>(&mut self, of: &[T]) -> T {
        of[self.below(of.len() as u64) as usize]
    }

    /// A register, often at a boundary.
    pub fn register(&mut self) -> u32 {
        let boundary = self.pick(&[0, 1, 0x7FFF_FFFF, 0x8000_0000, 0xFFFF_FFFE, 0xFFFF_FFFF]);
        if self.below(2) == 0 { boundary } else { self.bits() as u32 }
    }

    pub fn state(&mut self) -> State {
        State {
            d: std::array::from_fn(|_| self.register()),
            a: std::array::from_fn(|_| self.register()),
            flags: Flags::of(self.bits() as u8),
        }
    }
}

/// Document 01's example, with its tabs.
pub const EXAMPLE: &[u8] = b"width\t2\nadd\t0\t1\nneg\t1\n";

/// A width line and so many lines `copy 0 1`.
pub fn copies(width: u8, lines: usize) -> Vec<u8> {
    format!("width\t{width}\n{}", "copy\t0\t1\n".repeat(lines)).into_bytes()
}

/// Every form with registers and small numbers of its own: each operation, each operand kind.
pub fn forms() -> Vec<Form> {
    let mut forms = vec![Form::Chk(D(1), D(2))];
    forms.extend(TwoOp::ALL.iter().map(|&op| Form::Two(op, D(3), D(4))));
    for source in [Register::Data(D(5)), Register::Address(A(6))] {
        forms.extend(AddressOp::ALL.iter().map(|&op| Form::Address(op, source, A(7))));
        forms.extend(QuickOp::ALL.iter().map(|&op| Form::Quick(op, 8, source)));
    }
    forms.extend(OneOp::ALL.iter().map(|&op| Form::One(op, D(0))));
    for count in [Count::Small(7), Count::Data(D(1))] {
        forms.extend(ShiftOp::ALL.iter().map(|&op| Form::Shift(op, count, D(2))));
        forms.extend(BitOp::ALL.iter().map(|&op| Form::Bit(op, count, D(3))));
    }
    forms
}
