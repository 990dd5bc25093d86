//! Racks of boxes, and what document 02, item 2, says of them: each box is the single run on its set, here that of `tuned`,
//! unless the rack is refused. As records, for the port's `rack`; and as the flat rows of its C function `rack_run`.

use crate::recipes::{BOXES_MAX, SLOTS};
use crate::steps::{Ran, State, Step, TOLD, Told};
use crate::tuned;
use std::fmt::Debug;
use std::iter::repeat_with;

/// The number of a refused rack.
pub const TOO_MANY: u64 = 15;

/// As many lie behind a row, at least.
const BEHIND: usize = 10;

/// A row of which the first `length` are lent. Whatever is done, what lies behind them must stay.
#[derive(Clone, PartialEq)]
pub struct Row<T> {
    pub all: Vec<T>,
    pub length: usize,
}

impl<T: PartialEq + Debug> Row<T> {
    /// A row of that length, in which also the first `needed` can be reached.
    pub fn new(length: usize, needed: usize, make: impl FnMut() -> T) -> Row<T> {
        Row { all: repeat_with(make).take(length.max(needed) + BEHIND).collect(), length }
    }

    pub fn lent(&self) -> &[T] {
        &self.all[..self.length]
    }

    pub fn lent_to_write(&mut self) -> &mut [T] {
        &mut self.all[..self.length]
    }

    /// Where it first differs from the wanted one; nothing if it doesn't.
    pub fn against(&self, want: &Row<T>, name: &str) -> String {
        let place = (0..want.all.len()).find(|&at| self.all[at] != want.all[at]);
        let shown = |at| format!("\n  {name} {at}: {:x?}\n    wanted {:x?}", self.all[at], want.all[at]);
        place.map(shown).unwrap_or_default()
    }
}

/// A listing, and the rows that it is run on.
#[derive(Clone, PartialEq)]
pub struct Rack {
    pub listing: Vec<Step>,
    pub sets: Row<State>,
    pub starts: Row<usize>,
    pub budget: u32,
    pub slots: Row<Ran>,
}

impl Rack {
    /// "15 more than 64 sets, or fewer start places or answer slots than sets"
    pub fn faults(&self) -> [bool; 3] {
        let sets = self.sets.length;
        [sets > BOXES_MAX, self.starts.length < sets, self.slots.length < sets]
    }

    /// What the single run of that listing on each set leaves and says.
    pub fn singles(&self, listing: &[Step]) -> impl Iterator<Item = (State, Ran)> {
        self.sets.lent().iter().zip(self.starts.lent()).map(|(&set, &start)| {
            let mut state = set;
            let ran = tuned::run(listing, &mut state, start, self.budget);
            (state, ran)
        })
    }

    /// The refusal's number and the boxes that are run; the rows as they are left.
    pub fn wanted(&self) -> ((u64, usize), Rack) {
        let mut left = self.clone();
        if self.faults().contains(&true) {
            return ((TOO_MANY, 0), left);
        }
        for (i, (state, ran)) in self.singles(&self.listing).enumerate() {
            (left.sets.all[i], left.slots.all[i]) = (state, ran);
        }
        ((0, self.sets.length), left)
    }

    pub fn shown(&self) -> String {
        let lengths = [self.listing.len(), self.sets.length, self.starts.length, self.slots.length];
        format!("rack of steps, sets, start places, slots {lengths:?}, budget {}", self.budget)
    }
}

/// The rows of a rack as words. A box has eight of `d`, of `a` and of `answers`.
#[derive(Clone, PartialEq)]
pub struct Words {
    pub listing: Vec<u64>,
    pub d: Row<u32>,
    pub a: Row<u32>,
    pub flags: Row<u8>,
    pub starts: Row<usize>,
    pub budget: u32,
    pub answers: Row<u64>,
}

impl Words {
    /// Of a rack. What has no meaning, in the steps' words and the flags' bytes too, is junk.
    pub fn of(rack: &Rack, mut junk: impl FnMut() -> u64) -> Words {
        let Row { all: sets, length } = &rack.sets;
        let listing = rack.listing.iter().map(|step| step.word() | junk() << 48).collect();
        let flags = sets.iter().map(|set| set.flags.ccr() | (junk() as u8 & 0xE0)).collect();
        let answers = repeat_with(junk).take(TOLD * rack.slots.all.len()).collect();
        Words {
            listing,
            d: Row { all: sets.iter().flat_map(|set| set.d).collect(), length: 8 * length },
            a: Row { all: sets.iter().flat_map(|set| set.a).collect(), length: 8 * length },
            flags: Row { all: flags, length: *length },
            starts: rack.starts.clone(),
            budget: rack.budget,
            answers: Row { all: answers, length: TOLD * rack.slots.length },
        }
    }

    /// More than 64 flags; fewer start places than flags; fewer than eight words of `d`, `a` or `answers` for each.
    pub fn faults(&self) -> [bool; 5] {
        let boxes = self.flags.length;
        let short = [self.d.length, self.a.length, self.answers.length].map(|words| words < 8 * boxes);
        [boxes > BOXES_MAX, self.starts.length < boxes, short[0], short[1], short[2]]
    }

    /// What is told, and the rows as they are left. The listing is cut.
    pub fn wanted(&self, rack: &Rack) -> (Told, Words) {
        let mut left = self.clone();
        if self.faults().contains(&true) {
            return ([TOO_MANY, 0, 0, 0, 0, 0, 0, 0], left);
        }
        let listing = &rack.listing[..rack.listing.len().min(SLOTS)];
        for (i, (state, ran)) in rack.singles(listing).enumerate() {
            let place = 8 * i..8 * i + 8;
            left.d.all[place.clone()].copy_from_slice(&state.d);
            left.a.all[place.clone()].copy_from_slice(&state.a);
            left.flags.all[i] = state.flags.ccr();
            left.answers.all[place].copy_from_slice(&ran.told());
        }
        ([0, self.flags.length as u64, 0, 0, 0, 0, 0, 0], left)
    }

    pub fn shown(&self) -> String {
        let rows = [self.listing.len(), self.flags.length, self.starts.length];
        let words = [self.d.length, self.a.length, self.answers.length];
        let budget = self.budget;
        format!(
            "rack_run of steps, flags, start places {rows:?}, words of d, a, answers {words:?}, budget {budget}"
        )
    }
}
