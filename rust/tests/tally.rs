//! Cases counted, and those that differ; refused calls.

use kickballbox::{Reason, Refusal};
use std::fmt::Debug;

pub struct Tally {
    name: String,
    cases: u64,
    differing: u64,
}

impl Tally {
    pub fn new(name: impl Into<String>) -> Tally {
        Tally { name: name.into(), cases: 0, differing: 0 }
    }

    /// One more case: what came, and what is expected. The first differences are shown.
    pub fn compare<T: PartialEq + Debug>(&mut self, came: T, expected: T) {
        if came != expected {
            if self.differing < 3 {
                eprintln!("{}, case {}: {came:?}, expected {expected:?}", self.name, self.cases);
            }
            self.differing += 1;
        }
        self.cases += 1;
    }

    /// Prints the counts. So many cases are expected, and none that differs.
    pub fn end(self, cases: u64) {
        let Tally { name, cases: counted, differing } = self;
        println!("{name}: {counted} cases, {differing} differing");
        assert_eq!((counted, differing), (cases, 0), "{name}: cases, and how many differ");
    }
}

/// How many calls were refused, and how many of them with 24 and 25.
#[derive(Default)]
pub struct Refused {
    pub all: u64,
    locked: u64,
    depth: u64,
}

impl Refused {
    /// One more call, as it was answered.
    pub fn note(&mut self, made: Result<(), Refusal>) {
        self.all += u64::from(made.is_err());
        self.locked += u64::from(made == Err(Reason::Locked.into()));
        self.depth += u64::from(made == Err(Reason::Depth.into()));
    }

    /// Prints the counts. More than 1,000 of each are expected.
    pub fn end(self, name: &str) {
        println!("{name}: {} calls refused, {} of them with 24, {} with 25", self.all, self.locked, self.depth);
        assert!(self.locked > 1000 && self.depth > 1000, "too plain a mixture");
    }
}
