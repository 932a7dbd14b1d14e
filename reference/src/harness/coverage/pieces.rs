//! Counts what recordings in pieces have met.

use crate::harness::situations::{Ending, Feeding, Observed, Situations};
use crate::harness::Run;

/// How many recordings, pieces and calls there were, and how often each situation was met.
#[derive(Default)]
pub struct PieceCoverage {
    /// recordings, each as often as it was fed
    pub runs: u64,
    pub pieces: u64,
    pub calls: u64,
    situations: Situations,
}

impl PieceCoverage {
    /// Counts one call that feeds.
    pub fn count_feeding(&mut self, feeding: &Feeding) {
        self.situations.count(Observed::Feeding(feeding));
    }

    /// Counts one call that announces the end.
    pub fn count_ending(&mut self, ending: &Ending) {
        self.situations.count(Observed::Ending(ending));
    }

    /// What should have been met and was not.
    pub fn gaps(&self) -> Vec<String> {
        self.situations.gaps(Run::Pieces)
    }

    /// The numbers, and one line for each situation.
    pub fn table(&self) -> String {
        let PieceCoverage { runs, pieces, calls, situations } = self;
        format!("{runs} runs, {pieces} pieces, {calls} calls{}", situations.table(Run::Pieces))
    }
}
