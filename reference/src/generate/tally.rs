//! How often each outcome occurs.

use std::collections::BTreeMap;
use std::fmt;

/// Outcomes by refusal number; 0 is acceptance.
#[derive(Clone, Debug, Default, PartialEq, Eq)]
pub struct Tally(BTreeMap<u32, usize>);

impl Tally {
    pub fn of(numbers: impl Iterator<Item = u32>) -> Tally {
        let mut tally = Tally::default();
        for number in numbers {
            *tally.0.entry(number).or_default() += 1;
        }
        tally
    }

    pub fn count(&self, number: u32) -> usize {
        self.0.get(&number).copied().unwrap_or(0)
    }

    pub fn total(&self) -> usize {
        self.0.values().sum()
    }
}

impl fmt::Display for Tally {
    fn fmt(&self, f: &mut fmt::Formatter<'_>) -> fmt::Result {
        let total = self.total();
        for (number, count) in &self.0 {
            let share = 100.0 * *count as f64 / total as f64;
            match number {
                0 => writeln!(f, "accepted   {count:8}  {share:5.2} %")?,
                _ => writeln!(f, "refusal {number} {count:8}  {share:5.2} %")?,
            }
        }
        writeln!(f, "total      {total:8}")
    }
}
