//! Counts blocks by verdict, by length and by faults behind the one that is told.

use std::collections::BTreeSet;

use crate::block::{BlockFault, BLOCK_FAULTS};
use crate::harness::coverage::faults::{name, FaultPairs};
use crate::harness::coverage::verdicts::Verdicts;
use crate::harness::situations::Offered;
use crate::session::LONGEST_BLOCK;

/// How often each was met.
pub struct BlockCounts {
    pub verdicts: Verdicts,
    pairs: FaultPairs,
    /// the lengths that were judged
    lengths: BTreeSet<usize>,
}

impl Default for BlockCounts {
    fn default() -> BlockCounts {
        BlockCounts {
            verdicts: Verdicts::new("block", (0..BLOCK_FAULTS.len()).map(name)),
            pairs: FaultPairs::default(),
            lengths: BTreeSet::new(),
        }
    }
}

impl BlockCounts {
    /// Counts one block with its verdict.
    pub fn count(&mut self, offered: &Offered) {
        let fault = offered.verdict.err().map(BlockFault::place);
        self.verdicts.count(fault);
        // A1 is told before the length is looked at.
        if fault != Some(0) {
            self.lengths.insert(offered.block.len());
        }
        self.pairs.count(offered);
    }

    /// What should have been met and was not.
    pub fn gaps(&self) -> Vec<String> {
        let lengths = (0..=LONGEST_BLOCK).filter(|length| !self.lengths.contains(length));
        let lengths = lengths.map(|length| format!("block of {length} bytes: 0")).collect();
        [self.verdicts.gaps(), lengths, self.pairs.gaps()].concat()
    }

    /// The verdicts and the pairs of faults.
    pub fn table(&self) -> String {
        self.verdicts.table() + &self.pairs.table()
    }
}

#[cfg(test)]
mod tests {
    use super::*;
    use crate::board::Board;

    #[test]
    fn gaps_are_filled_one_by_one() {
        let mut counts = BlockCounts::default();
        let all = counts.gaps().len();
        assert_eq!(all, 18 + 513 + 17 * 16 / 2);
        let board = Board::first();
        let offered = |block, verdict| Offered { board: &board, abi: [0, 1], block, verdict };
        counts.count(&offered(&[], Err(BlockFault::B1)));
        assert_eq!(counts.gaps().len(), all - 2);
        // It has a wrong ABI byte as well.
        counts.count(&offered(&[1, 1], Err(BlockFault::B1)));
        assert_eq!(counts.gaps().len(), all - 4);
        assert!(counts.gaps().contains(&"block B1 before A3: 0".to_string()));
        assert_eq!(counts.verdicts.total(), 2);
    }
}
