//! How often a run came upon what a wrong library would slip on.

use std::collections::BTreeMap;

/// The times by what was met. Each group of cases has its list of what has to be met.
#[derive(Default)]
pub struct Reached(BTreeMap<&'static str, u64>);

impl Reached {
    pub fn count(&mut self, what: &'static str, met: bool) {
        *self.0.entry(what).or_default() += u64::from(met);
    }

    fn times(&self, what: &str) -> u64 {
        self.0.get(what).copied().unwrap_or(0)
    }

    /// Those of a list that were never met.
    pub fn missing(&self, all: &[&'static str]) -> Vec<String> {
        all.iter().filter(|what| self.times(what) == 0).map(|what| what.to_string()).collect()
    }

    pub fn report(&self, all: &[&'static str]) -> String {
        all.iter().map(|what| format!("{what} {}", self.times(what))).collect::<Vec<_>>().join(", ")
    }
}
