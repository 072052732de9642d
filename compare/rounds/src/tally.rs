//! Counts outcomes by refusal number and prints the first few differences.
use std::collections::BTreeMap;
use std::iter::Sum;
use std::ops::Add;
use std::panic;

/// What a round found: answers that differ, and refusals that it must meet and didn't.
#[derive(Clone, Copy, Default)]
pub struct Found {
    pub differences: u64,
    pub unmet: u64,
}

impl Add for Found {
    type Output = Found;
    fn add(self, other: Found) -> Found {
        Found { differences: self.differences + other.differences, unmet: self.unmet + other.unmet }
    }
}

impl Sum for Found {
    fn sum<I: Iterator<Item = Found>>(all: I) -> Found {
        all.fold(Found::default(), Found::add)
    }
}

pub struct Tally {
    name: &'static str,
    cases: u64,
    outcomes: BTreeMap<u32, u64>,
    differences: u64,
}

impl Tally {
    pub fn new(name: &'static str) -> Self {
        Tally { name, cases: 0, outcomes: BTreeMap::new(), differences: 0 }
    }

    /// One comparison: the refusal number met (0 where accepted), and whether the two sides agree.
    pub fn case(&mut self, number: u32, same: bool, say: impl FnOnce() -> String) {
        self.cases += 1;
        *self.outcomes.entry(number).or_default() += 1;
        if !same {
            self.differences += 1;
            if self.differences <= 5 {
                println!("{}: {}", self.name, say());
            }
        }
    }

    /// Which of these numbers were not met.
    pub fn missing(&self, numbers: &[u32]) -> Found {
        let missing: Vec<u32> = numbers.iter().copied().filter(|n| !self.outcomes.contains_key(n)).collect();
        if !missing.is_empty() {
            println!("{}: not met in this run: {missing:?}", self.name);
        }
        Found { unmet: missing.len() as u64, ..Found::default() }
    }

    pub fn done(self) -> Found {
        let outcomes: Vec<String> = self
            .outcomes
            .iter()
            .map(|(number, count)| if *number == 0 { format!("accepted {count}") } else { format!("{number}: {count}") })
            .collect();
        println!("{:12} {:9} comparisons, {} differences ({})", self.name, self.cases, self.differences, outcomes.join(", "));
        Found { differences: self.differences, ..Found::default() }
    }
}

/// The same number, the sign of zero aside.
pub fn same_number(x: f64, y: f64) -> bool {
    x.to_bits() == y.to_bits() || x == 0.0 && y == 0.0
}

/// What the published text answers; nothing where it refuses or a refusal unwinds.
pub fn published<T>(call: impl FnOnce() -> Option<T>) -> Option<T> {
    panic::catch_unwind(panic::AssertUnwindSafe(call)).ok().flatten()
}
