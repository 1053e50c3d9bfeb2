//! Counts by name, for what streams reach.

use std::collections::BTreeMap;

#[derive(Default)]
pub struct Counts {
    counts: BTreeMap<String, usize>,
}

impl Counts {
    pub fn add(&mut self, name: String) {
        *self.counts.entry(name).or_default() += 1;
    }

    pub fn of(&self, name: &str) -> usize {
        self.counts.get(name).copied().unwrap_or(0)
    }

    /// A line for each of the names that never occurred.
    pub fn missing(&self, names: &[String]) -> Vec<String> {
        let missing = names.iter().filter(|name| self.of(name) == 0);
        missing
            .map(|name| format!("{name} never occurred"))
            .collect()
    }

    /// A line for each of the names, with its count.
    pub fn table(&self, names: &[String]) -> String {
        let rows: Vec<String> = names
            .iter()
            .map(|name| format!("{name}: {}", self.of(name)))
            .collect();
        rows.join("\n")
    }
}
