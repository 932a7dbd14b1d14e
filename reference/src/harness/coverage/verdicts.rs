//! Counts what was offered of one kind by its verdict.

/// How often each verdict was given.
pub struct Verdicts {
    kind: &'static str,
    /// by name: OK, and then the faults in the order of the tests
    counts: Vec<(String, u64)>,
}

impl Verdicts {
    /// None given yet, of a kind with these faults.
    pub fn new(kind: &'static str, faults: impl IntoIterator<Item = String>) -> Verdicts {
        let names = ["OK".to_string()].into_iter().chain(faults);
        Verdicts { kind, counts: names.map(|name| (name, 0)).collect() }
    }

    /// Counts one, told by the place of its fault if it has one.
    pub fn count(&mut self, fault: Option<usize>) {
        self.counts[fault.map_or(0, |place| place + 1)].1 += 1;
    }

    /// All that were counted.
    pub fn total(&self) -> u64 {
        self.counts.iter().map(|(_, count)| count).sum()
    }

    /// The verdicts that were never given.
    pub fn gaps(&self) -> Vec<String> {
        let never = self.counts.iter().filter(|(_, count)| *count == 0);
        never.map(|(name, _)| format!("{} {name}: 0", self.kind)).collect()
    }

    /// One line.
    pub fn table(&self) -> String {
        let cells = self.counts.iter().map(|(name, count)| format!(" {name} {count}"));
        format!("\n{}s:{}", self.kind, cells.collect::<String>())
    }
}
