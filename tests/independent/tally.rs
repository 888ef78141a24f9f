//! Counts by name, and the quotas that a full run has to reach: what the totals of frames and those of the index do alike.

use crate::totals::say;
use std::collections::{BTreeMap, BTreeSet};

/// A name, the numbers that N stands for in it (none: one count only), and the quota of each.
pub type Row = (&'static str, &'static [u64], u64);

#[derive(Default)]
pub struct Tally {
    counts: BTreeMap<(&'static str, u64), u64>,
    different: BTreeMap<&'static str, BTreeSet<u64>>,
}

impl Tally {
    pub fn add(&mut self, name: &'static str) {
        self.add_of(name, 0);
    }

    /// Not put into its many callers: that would take more time in compiling than it saves.
    #[inline(never)]
    pub fn add_of(&mut self, name: &'static str, number: u64) {
        *self.counts.entry((name, number)).or_insert(0) += 1;
    }

    pub fn add_if(&mut self, holds: bool, name: &'static str) {
        if holds {
            self.add(name);
        }
    }

    pub fn add_many(&mut self, name: &'static str, count: u64) {
        *self.counts.entry((name, 0)).or_insert(0) += count;
    }

    pub fn differs(&mut self, row: Row, number: u64) {
        self.different.entry(row.0).or_default().insert(number);
    }

    pub fn counted(&self, name: &'static str, number: u64) -> u64 {
        self.counts.get(&(name, number)).copied().unwrap_or(0)
    }

    /// Prints the counts, each name behind the word given, and answers what is below its quota. A count that no row has is a fault of this program.
    pub fn report(&self, of: &str, rows: &[Row], different: &[Row]) -> Vec<String> {
        let mut short = Vec::new();
        let mut say = |name: String, count: u64, quota: u64| say(&mut short, format!("{}{}", of, name), count, quota);
        for (name, _) in self.counts.keys() {
            assert!(rows.iter().any(|row| row.0 == *name), "counted, but in no row: {}", name);
        }
        for &(name, numbers, quota) in rows {
            if numbers.is_empty() {
                say(name.to_string(), self.counted(name, 0), quota);
            }
            for &number in numbers {
                say(name.replace('N', &number.to_string()), self.counted(name, number), quota);
            }
        }
        for &(name, _, quota) in different {
            say(name.to_string(), self.different.get(name).map_or(0, |numbers| numbers.len() as u64), quota);
        }
        short
    }
}
