//! What was tried, what was met, and what differs.

use gromavelush::Refusal;
use std::collections::BTreeMap;
use std::iter::once;

/// How many disagreements are printed whole; the rest are counted.
const SHOWN: u64 = 5;

/// The C functions and the safe ones, counted by calls.
pub const CALLS: [&str; 14] = [
    "alu_call",
    "listing_run",
    "rack_run",
    "listing_print",
    "recipe_translate",
    "recipe_answer",
    "recipe_run",
    "exec_..",
    "run, run_words",
    "rack, rack_run of the package",
    "print",
    "translate, translate_into",
    "answer",
    "run_text",
];

/// How often each number was met.
type Met = BTreeMap<u64, u64>;

#[derive(Default)]
pub struct Tally {
    calls: [u64; CALLS.len()],
    refusals: Met,
    ends: Met,
    classes: Met,
    differing: u64,
}

impl Tally {
    pub fn called(&mut self, name: &str) {
        if let Some(at) = CALLS.iter().position(|call| *call == name) {
            self.calls[at] += 1;
        }
    }

    /// 0 is acceptance.
    pub fn refused(&mut self, number: u64) {
        *self.refusals.entry(number).or_default() += 1;
    }

    pub fn ended(&mut self, end: u64) {
        *self.ends.entry(end).or_default() += 1;
    }

    pub fn class(&mut self, class: u64) {
        *self.classes.entry(class).or_default() += 1;
    }

    /// `text` describes a disagreement.
    pub fn agrees(&mut self, agrees: bool, text: impl FnOnce() -> String) {
        if !agrees {
            self.differ(text);
        }
    }

    pub fn differ(&mut self, text: impl FnOnce() -> String) {
        self.differing += 1;
        if self.differing <= SHOWN {
            println!("DIFFERS {}", text());
        }
    }

    /// Adds another's counts.
    pub fn take(&mut self, other: &Tally) {
        let add =
            |all: &mut Met, of: &Met| of.iter().for_each(|(&at, count)| *all.entry(at).or_default() += count);
        add(&mut self.refusals, &other.refusals);
        add(&mut self.ends, &other.ends);
        add(&mut self.classes, &other.classes);
        self.calls.iter_mut().zip(other.calls).for_each(|(sum, count)| *sum += count);
        self.differing += other.differing;
    }

    /// What is counted by number, and the numbers that there are.
    fn counts(&self) -> [(&'static str, &Met, Vec<u64>); 3] {
        let refusals = Refusal::ALL.iter().map(|refusal| refusal.number().into());
        [
            ("accepted (0), refused with", &self.refusals, once(0).chain(refusals).collect()),
            ("Finished, Budget, Trapped, Refused", &self.ends, (0..4).collect()),
            ("Pass, Over, Short, Below", &self.classes, (0..4).collect()),
        ]
    }

    /// What was never met, and what was met that there isn't.
    fn faults(&self) -> Vec<String> {
        let mut found = vec![];
        for (names, met, numbers) in self.counts() {
            let never = numbers.iter().filter(|number| !met.contains_key(number));
            found.extend(never.map(|number| format!("NEVER MET: {number} of {names}")));
            let unknown = met.keys().filter(|number| !numbers.contains(number));
            found.extend(unknown.map(|number| format!("UNKNOWN: {number} of {names}")));
        }
        let uncalled = CALLS.iter().zip(self.calls).filter(|(_, calls)| *calls == 0);
        found.extend(uncalled.map(|(name, _)| format!("NEVER CALLED: {name}")));
        found
    }

    pub fn print(&self) {
        for (name, calls) in CALLS.iter().zip(self.calls) {
            println!("{calls:12} calls of {name}");
        }
        for (names, met, _) in self.counts() {
            let counts: Vec<String> =
                met.iter().map(|(number, count)| format!("{number}: {count}")).collect();
            println!("{names}: {}", counts.join(", "));
        }
        for fault in self.faults() {
            println!("{fault}");
        }
        println!("{} calls, {} differ", self.calls.iter().sum::<u64>(), self.differing);
    }

    pub fn is_good(&self) -> bool {
        self.differing == 0 && self.faults().is_empty()
    }
}
