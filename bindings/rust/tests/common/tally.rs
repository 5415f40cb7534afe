//! Counts comparisons by kind, so that no test can pass by making none.

use std::collections::BTreeMap;
use std::io::Write;

#[derive(Default)]
pub struct Tally(BTreeMap<&'static str, u64>);

const REFUSALS: [&str; 15] = [
    "refusal 1",
    "refusal 2",
    "refusal 3",
    "refusal 4",
    "refusal 5",
    "refusal 6",
    "refusal 7",
    "refusal 8",
    "refusal 9",
    "refusal 10",
    "refusal 11",
    "refusal 12",
    "refusal 13",
    "refusal 14",
    "refusal 15",
];

impl Tally {
    pub fn add(&mut self, kind: &'static str, count: u64) {
        *self.0.entry(kind).or_default() += count;
    }

    pub fn add_refusal(&mut self, number: u32) {
        self.add(REFUSALS[number as usize - 1], 1);
    }

    /// A cell of a chart, by the warm-ups that it takes more than the fewest; none if there is no such plan.
    pub fn add_cell(&mut self, more: Option<u32>) {
        let kind = match more {
            None => "never",
            Some(0) => "for nothing",
            Some(1) => "for 1",
            Some(2) => "for 2",
            Some(_) => "for more",
        };
        self.add(kind, 1);
    }

    pub fn of(&self, kind: &str) -> u64 {
        self.0.get(kind).copied().unwrap_or(0)
    }

    /// Fails if a kind was compared less often than stated.
    pub fn require(&self, least: &[(&str, u64)]) {
        for &(kind, least) in least {
            assert!(self.of(kind) >= least, "{kind}: {} comparisons, at least {least} are due", self.of(kind));
        }
    }

    pub fn require_refusals(&self, numbers: impl IntoIterator<Item = usize>, least: u64) {
        for number in numbers {
            self.require(&[(REFUSALS[number - 1], least)]);
        }
    }

    /// Prints the counts, past the test harness, which keeps the prints of tests that pass to itself.
    pub fn print(&self, test: &str) {
        let kinds: Vec<String> = self.0.iter().map(|(kind, count)| format!("{kind}: {count}")).collect();
        let mut out = std::io::stderr().lock();
        writeln!(out, "compared, {test}: {}", kinds.join(", ")).unwrap();
    }
}
