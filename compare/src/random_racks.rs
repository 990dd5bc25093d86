//! Racks at random. The sets and slots that nothing is to touch are full of random numbers too.

use crate::cases::Random;
use crate::racks::{Rack, Row, Words};
use crate::recipes::{BOXES_MAX, SLOTS};
use crate::steps::{Class, End, Flags, MIXED, Ran, State, Step, WILD, steps_of};

pub fn junk_set(random: &mut Random) -> State {
    let [d, a] = [(); 2].map(|()| std::array::from_fn(|_| random.number()));
    State { d, a, flags: Flags::of(random.bits() as u8) }
}

pub fn junk_slot(random: &mut Random) -> Ran {
    let [place, next] = [(); 2].map(|()| random.bits() as usize);
    let (steps, clocks) = (random.bits() as u32, random.bits());
    Ran { end: End::Trapped(Class::Below, place, random.bits() as u8), next, steps, clocks }
}

/// A row for so many: just enough, spare ones, or too few.
fn length_for(needed: usize, random: &mut Random) -> usize {
    match random.below(8) {
        0 => random.below(needed.max(1)),
        1..4 => needed + 1 + random.below(9),
        _ => needed,
    }
}

/// The same for words, eight for each box; too few often by less than a box.
fn words_for(boxes: usize, random: &mut Random) -> usize {
    match random.below(16) {
        0 => (8 * boxes).saturating_sub(1 + random.below(7)),
        1 => random.below(8 * boxes.max(1)),
        2..8 => 8 * boxes + 1 + random.below(20),
        _ => 8 * boxes,
    }
}

fn random_sets(random: &mut Random) -> usize {
    match random.below(16) {
        0 => 0,
        1 | 2 => 1,
        3..9 => 2 + random.below(7),
        9..11 => 9 + random.below(55),
        11..13 => BOXES_MAX,
        13 | 14 => BOXES_MAX + 1,
        _ => BOXES_MAX + 2 + random.below(100),
    }
}

pub fn random_listing(random: &mut Random) -> Vec<Step> {
    let length = match random.below(16) {
        0 => 0,
        1..6 => 1 + random.below(8),
        6..12 => random.below(65),
        12..15 => random.below(SLOTS + 1),
        _ => SLOTS + 1 + random.below(44),
    };
    steps_of(random.pick(&[MIXED, WILD]), random.bits() as u32).take(length).collect()
}

pub fn random_start(steps: usize, random: &mut Random) -> usize {
    match random.below(16) {
        0..6 => 0,
        6..12 => random.below(steps + 1),
        12..14 => steps,
        14 => steps + 1 + random.below(300),
        _ => random.pick(&[steps + 1, usize::MAX]),
    }
}

pub fn random_budget(random: &mut Random) -> u32 {
    match random.below(8) {
        0 => 0,
        1..4 => 1 + random.below(8) as u32,
        4 => random.below(300) as u32,
        _ => u32::MAX,
    }
}

/// A set. A CHK of D7 by itself, which no step changes, traps in some boxes and not in others.
pub fn random_set(random: &mut Random) -> State {
    let mut set = junk_set(random);
    if random.below(4) > 0 {
        set.d[7] &= 0xFFFF_7FFF;
    }
    set
}

pub fn random_rack(random: &mut Random) -> Rack {
    let (sets, listing) = (random_sets(random), random_listing(random));
    let [starts, slots] = [(); 2].map(|()| length_for(sets, random));
    Rack {
        sets: Row::new(sets, sets, || random_set(random)),
        starts: Row::new(starts, sets, || random_start(listing.len(), random)),
        budget: random_budget(random),
        slots: Row::new(slots, sets, || junk_slot(random)),
        listing,
    }
}

pub fn random_words(rack: &Rack, random: &mut Random) -> Words {
    let mut words = Words::of(rack, || random.bits());
    for length in [&mut words.d.length, &mut words.a.length, &mut words.answers.length] {
        *length = words_for(rack.sets.length, random);
    }
    words
}
