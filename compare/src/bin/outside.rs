//! What the crate answers outside document 01's domain, where the port refuses: for docs/DIFFERENCES.md.
//! (Its bit operations take no size: on a register they are long.)

use compare::document;
use compare::machine::Machine;
use compare::oracle::Oracle;
use compare::packed::{Op, Op::*, Request, Size, Size::*};
use compare::steps::{self, Adr, Bit, Count, Flags, Form, One, Quick, Register, Shift, State, Step};
use std::panic::{catch_unwind, set_hook};

/// Each kind of refusal, operation, size, source and destination: the smallest input, then one that shows
/// what the crate does.
const CASES: [(Op, Size, u32, u32); 20] = [
    (Adda, Byte, 0, 0),
    (Adda, Byte, 0x80, 0),
    (Suba, Byte, 0, 0),
    (Suba, Byte, 0x1_0001, 0),
    (Cmpa, Byte, 0, 0),
    (Cmpa, Byte, 0x100, 0),
    (AddqA, Byte, 0, 0),
    (AddqA, Byte, 1, 0xFF),
    (SubqA, Byte, 0, 0),
    (SubqA, Byte, 1, 0),
    (Ext, Byte, 0, 0),
    (Ext, Byte, 0, 0x1180),
    (Chk, Byte, 0, 0),
    (Chk, Byte, 0, 0x80),
    (Chk, Long, 0, 0),
    (Chk, Long, 1, 0x8000_0000),
    (Roxl, Byte, 64, 0),
    (Roxl, Byte, 64, 1),
    (Roxr, Byte, 64, 0),
    (Roxr, Byte, 72, 1),
];

/// Long steps that name a register or a small number that isn't there.
const STEPS: [(&str, Form); 17] = [
    ("EXT D8", Form::One(One::Ext, 8)),
    ("NEG D8", Form::One(One::Neg, 8)),
    ("NEGX D8", Form::One(One::Negx, 8)),
    ("NOT D8", Form::One(One::Not, 8)),
    ("CLR D8", Form::One(One::Clr, 8)),
    ("ADDQ #1,D8", Form::Quick(Quick::Addq, 1, Register::Data(8))),
    ("BSET #0,D8", Form::Bit(Bit::Bset, Count::Small(0), 8)),
    ("ADDA D1,A8", Form::Address(Adr::Adda, Register::Data(1), 8)),
    ("CMPA D1,A8", Form::Address(Adr::Cmpa, Register::Data(1), 8)),
    ("ADDQ #1,A8", Form::Quick(Quick::Addq, 1, Register::Address(8))),
    ("ADDQ #0,D1", Form::Quick(Quick::Addq, 0, Register::Data(1))),
    ("ADDQ #9,D1", Form::Quick(Quick::Addq, 9, Register::Data(1))),
    ("SUBQ #9,A1", Form::Quick(Quick::Subq, 9, Register::Address(1))),
    ("ASL #0,D1", Form::Shift(Shift::Asl, Count::Small(0), 1)),
    ("ASL #9,D1", Form::Shift(Shift::Asl, Count::Small(9), 1)),
    ("BSET #32,D1", Form::Bit(Bit::Bset, Count::Small(32), 1)),
    ("BSET #255,D1", Form::Bit(Bit::Bset, Count::Small(255), 1)),
];

/// D0 = 8010, D1 = 8020 .. and A0 = 1000, A1 = 2000 .., hexadecimal; no flag.
fn before() -> State {
    let flags = Flags { x: false, n: false, z: false, v: false, c: false };
    let row = |first, unit| std::array::from_fn(|at| first + unit * (at as u32 + 1));
    State { d: row(0x8000, 0x10), a: row(0, 0x1000), flags }
}

fn changed(letter: char, old: [u32; 8], new: [u32; 8]) -> impl Iterator<Item = String> {
    (0..8).filter(move |&at| old[at] != new[at]).map(move |at| format!("{letter}{at} = {:08X}", new[at]))
}

/// The registers that a step of the crate changes, its flags and its figure.
fn done(form: Form) -> String {
    let mut machine = Machine::new(before());
    let ran = machine.run(&[Step { size: steps::Size::Long, form, line: 0 }], 0, 1);
    let (old, new) = (before(), machine.state());
    let registers: Vec<String> = changed('D', old.d, new.d).chain(changed('A', old.a, new.a)).collect();
    let Flags { x, n, z, v, c } = new.flags;
    let flags: String = [(x, 'X'), (n, 'N'), (z, 'Z'), (v, 'V'), (c, 'C')]
        .into_iter()
        .map(|(set, letter)| if set { letter } else { '-' })
        .collect();
    let registers = if registers.is_empty() { "no register".into() } else { registers.join(", ") };
    format!("{registers}; {flags}; figure {}", ran.clocks)
}

fn main() {
    for (op, size, src, dst) in CASES {
        let r = Request { op, size, src, dst, ccr: 0 };
        println!("{r}");
        println!("  crate    {}", Oracle::default().answer(r));
        println!("  reading  {}", document::answer(r));
    }
    set_hook(Box::new(|_| ())); // what the crate panics with is told below
    for (name, form) in STEPS {
        println!("{name}\n  crate    {}", catch_unwind(|| done(form)).unwrap_or("panics".into()));
    }
}
