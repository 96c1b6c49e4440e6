//! What the cases of a suite met, and the first that differs.

use crate::suites::Suite;
use std::fmt::{self, Display};

/// The first case that differs, in words.
pub struct Difference(String);

impl Difference {
    pub fn new(line: String) -> Difference {
        Difference(line)
    }
}

impl Display for Difference {
    fn fmt(&self, f: &mut fmt::Formatter<'_>) -> fmt::Result {
        f.write_str(&self.0)
    }
}

pub type Outcome = Result<(), Difference>;

#[derive(Copy, Clone, Default)]
pub struct Tally {
    pub cases: u64,
    pub panics: u64,
    /// Bit n is set once the number n was expected.
    numbers: u32,
}

impl Tally {
    /// One case more, whose expected number is this.
    pub fn met(&mut self, number: u32) {
        self.cases += 1;
        self.numbers |= 1 << number;
    }

    pub fn add(&mut self, other: Tally) {
        self.cases += other.cases;
        self.panics += other.panics;
        self.numbers |= other.numbers;
    }

    /// Whether the cases met all they should: each returned number that the suite names and no other, and enough panics.
    pub fn covers(&self, suite: &Suite, least: u64) -> Outcome {
        let named = suite
            .numbers
            .iter()
            .fold(0, |set, number| set | 1 << number);
        if self.numbers != named {
            let list: Vec<u32> = (0..32).filter(|n| self.numbers >> n & 1 == 1).collect();
            return Err(Difference(format!(
                "the cases of {} met the numbers {list:?} and should meet {:?}",
                suite.name, suite.numbers
            )));
        }
        if self.panics < least {
            return Err(Difference(format!(
                "the cases of {} met {} panics and should meet {least}",
                suite.name, self.panics
            )));
        }
        Ok(())
    }
}
