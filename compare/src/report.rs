//! What was compared, and what differs.
use std::collections::BTreeMap;

#[derive(Default)]
pub struct Report {
    counts: BTreeMap<&'static str, u64>,
    pub differences: u64,
}

impl Report {
    pub fn count(&mut self, kind: &'static str) {
        *self.counts.entry(kind).or_default() += 1;
    }

    /// Counts a comparison and prints what differs.
    pub fn compare<T: PartialEq + std::fmt::Debug>(
        &mut self,
        kind: &'static str,
        seed: u64,
        input: &dyn std::fmt::Debug,
        library: T,
        original: T,
    ) {
        self.count(kind);
        if library != original {
            self.differences += 1;
            println!("difference: {kind}, seed {seed}, {input:?}\n  library  {library:?}\n  original {original:?}");
        }
    }

    /// Counts a condition and prints where it does not hold.
    pub fn hold(&mut self, kind: &'static str, seed: u64, input: &dyn std::fmt::Debug, condition: bool) {
        self.compare(kind, seed, input, condition, true);
    }

    pub fn print(&self) {
        for (kind, n) in &self.counts {
            println!("{n:>9} {kind}");
        }
        println!("{} differences", self.differences);
    }
}
