//! Which limits the inputs meet, counted so that a run shows that it reached them.
#![allow(dead_code)]
use std::collections::BTreeMap;

/// What was met, and how often.
#[derive(Default)]
pub struct Met(BTreeMap<&'static str, u64>);

impl Met {
    pub fn note(&mut self, fact: bool, name: &'static str) {
        *self.0.entry(name).or_insert(0) += fact as u64;
    }

    /// Counts what another has counted.
    pub fn add(&mut self, other: &Met) {
        for (name, count) in &other.0 {
            *self.0.entry(name).or_insert(0) += count;
        }
    }

    /// Takes over the names of another, and none of its counts.
    pub fn heed(&mut self, other: &Met) {
        for name in other.0.keys() {
            self.0.entry(name).or_insert(0);
        }
    }

    /// Whether the other counted something that is here fewer than so many times.
    pub fn wants(&self, other: &Met, times: u64) -> bool {
        other.0.iter().any(|(name, &count)| count > 0 && self.0.get(name).is_none_or(|&so_far| so_far < times))
    }

    /// Whether something that was looked for is here fewer than so many times.
    pub fn lacks(&self, times: u64) -> bool {
        self.0.values().any(|&count| count < times)
    }

    pub fn print(&self) {
        for (name, count) in &self.0 {
            println!("    {name:<72} {count:>9}");
        }
    }
}
