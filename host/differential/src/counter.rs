//! Counts of what cases came to, and how many of each there must be.

use std::collections::BTreeMap;
use std::fmt::{self, Display};

pub struct Counter<E> {
    /// Every event that must come up, with the least number of times.
    goals: Vec<(E, u64)>,
    cases: u64,
    counts: BTreeMap<E, u64>,
}

impl<E: Copy + Display + Ord> Counter<E> {
    pub fn new(goals: Vec<(E, u64)>) -> Self {
        Counter {
            goals,
            cases: 0,
            counts: BTreeMap::new(),
        }
    }

    /// Begins another case.
    pub fn begin_case(&mut self) {
        self.cases += 1;
    }

    pub fn hit(&mut self, event: E) {
        *self.counts.entry(event).or_default() += 1;
    }

    fn count(&self, event: &E) -> u64 {
        self.counts.get(event).copied().unwrap_or(0)
    }

    /// The events that came up less often than they must.
    pub fn missed(&self) -> Vec<String> {
        self.goals
            .iter()
            .filter(|(event, least)| self.count(event) < *least)
            .map(|(event, least)| format!("{event}: {}, not {least}", self.count(event)))
            .collect()
    }
}

impl<E: Copy + Display + Ord> Display for Counter<E> {
    fn fmt(&self, f: &mut fmt::Formatter<'_>) -> fmt::Result {
        writeln!(f, "{:>9}  cases", self.cases)?;
        for (event, _) in &self.goals {
            writeln!(f, "{:>9}  {event}", self.count(event))?;
        }
        Ok(())
    }
}
