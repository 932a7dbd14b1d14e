//! Which processors belong together, as descriptions say it.

use crate::board::{Board, ALONE};
use crate::description::Description;

/// By processor number the cluster that a description gave it, or 0. The memory of the board does
/// not say which R5 processors are of one cluster.
#[derive(Clone)]
pub struct Clusters([u8; 256]);

impl Default for Clusters {
    fn default() -> Clusters {
        Clusters([0; 256])
    }
}

impl Clusters {
    /// The clusters that a description names; none for one that is refused.
    pub fn of(description: &[u8]) -> Clusters {
        let mut clusters = Clusters::default();
        for processor in Description::read(description).unwrap_or_default().processors {
            clusters.0[usize::from(processor.number)] = processor.cluster;
        }
        clusters
    }

    /// The cluster of a processor, or 0.
    pub fn cluster(&self, number: u8) -> u8 {
        self.0[usize::from(number)]
    }

    /// The processor, the others of its cluster, and those that have its control word.
    pub fn around(&self, board: &Board, processor: u8) -> Vec<u8> {
        let sharers = board.sharers(processor);
        let cluster = self.cluster(processor);
        let near = |&number: &u8| {
            let of_cluster = cluster != ALONE && self.cluster(number) == cluster;
            number == processor || of_cluster || sharers.contains(&number)
        };
        board.processors().into_iter().filter(near).collect()
    }
}
