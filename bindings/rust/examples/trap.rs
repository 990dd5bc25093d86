//! A listing made by hand, halted by its budget, continued into a CHK that traps, and continued after it. Its steps have lines of
//! their own, and the trap tells which.

use gromavelush::{D, Form, Listing, OneOp, QuickOp, Ran, Register, Size, State, Step, TooLong, run};

/// Adds 8 to D1, checks it against the bound in D0, clears D1: lines 7 to 9.
fn listing() -> Result<Listing, TooLong> {
    let word = |line, form| Step { size: Size::Word, form, line };
    Listing::new(&[
        word(7, Form::Quick(QuickOp::Addq, 8, Register::Data(D(1)))),
        word(8, Form::Chk(D(0), D(1))),
        word(9, Form::One(OneOp::Clr, D(1))),
    ])
}

fn tell(ran: &Ran, state: &State) {
    let Ran { end, next, steps, clocks } = ran;
    println!(
        "{end:?}: next place {next}, steps {steps}, clocks {clocks}; D1 {:08X}, flags {}",
        state.d[1], state.flags
    );
}

fn main() -> Result<(), TooLong> {
    let listing = listing()?;
    for (place, step) in listing.steps().iter().enumerate() {
        println!("{place}\t{step}");
    }
    let mut state = State { d: [10, 5, 0, 0, 0, 0, 0, 0], ..State::default() };
    let mut place = 0;
    for budget in [1, 100, 100] {
        let ran = run(&listing, &mut state, place, budget);
        tell(&ran, &state);
        place = ran.next;
    }
    Ok(())
}
