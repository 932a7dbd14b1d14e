//! Situations of long sessions: what they start from, and how far they take the tallies.

use crate::harness::compare::ledger::{GRANTS, HANDOVERS, MOST, OVERRIDES, RELEASES};
use crate::harness::situations::Named;

/// What a long session came to.
#[derive(Default)]
pub struct LongSession {
    /// whether a description was taken
    pub described: bool,
    /// whether the list came in a block
    pub in_block: bool,
    /// lists, blocks and descriptions that got A1 behind a message that counts
    pub refused: [u64; 3],
    /// by row the tallies at the start and what was counted since, in the order of the record
    pub rows: Vec<([u32; 4], [u64; 4])>,
    /// whether two processors with one control word have counts, and different ones
    pub apart: bool,
}

impl LongSession {
    fn starts_from_zeros(&self) -> bool {
        self.rows.iter().all(|(start, _)| *start == [0; 4])
    }

    /// Whether some row came past 255 in a session from zeros.
    fn past_a_byte(&self, place: usize) -> bool {
        self.starts_from_zeros() && self.rows.iter().any(|(_, counts)| counts[place] > 255)
    }

    /// Whether some row came to the largest number from below it and then stayed there.
    fn past_the_most(&self, place: usize) -> bool {
        let room = |start: &[u32; 4]| u64::from(MOST - start[place]);
        self.rows.iter().any(|(start, counts)| (1..counts[place]).contains(&room(start)))
    }
}

/// Whole sessions.
pub const SESSIONS: Named<fn(&LongSession) -> bool> = &[
    ("session from zeros", |s| s.starts_from_zeros()),
    ("session from tallies that are there", |s| !s.starts_from_zeros()),
    ("session on the first board", |s| !s.described),
    ("session on a described board", |s| s.described),
    ("session under a list", |s| !s.in_block),
    ("session under a block", |s| s.in_block),
    ("session with cores of a cluster counted apart", |s| s.apart),
    ("session with lists, blocks and boards refused", |s| !s.refused.contains(&0)),
    ("session from zeros past 255 grants", |s| s.past_a_byte(GRANTS)),
    ("session from zeros past 255 overrides", |s| s.past_a_byte(OVERRIDES)),
    ("session from zeros past 255 handovers", |s| s.past_a_byte(HANDOVERS)),
    ("session from zeros past 255 releases", |s| s.past_a_byte(RELEASES)),
    ("session past 4294967295 grants", |s| s.past_the_most(GRANTS)),
    ("session past 4294967295 overrides", |s| s.past_the_most(OVERRIDES)),
    ("session past 4294967295 handovers", |s| s.past_the_most(HANDOVERS)),
    ("session past 4294967295 releases", |s| s.past_the_most(RELEASES)),
    ("session with all tallies past 4294967295", |s| {
        [GRANTS, OVERRIDES, HANDOVERS, RELEASES].iter().all(|&place| s.past_the_most(place))
    }),
];

#[cfg(test)]
mod tests {
    use super::*;
    use crate::harness::situations::holding;

    /// What holds of a session with one row that starts so and counts so much.
    fn met(start: [u32; 4], counts: [u64; 4]) -> Vec<&'static str> {
        let session = LongSession { rows: vec![(start, counts)], ..LongSession::default() };
        let always = ["session on the first board", "session under a list"];
        let mut held = holding(SESSIONS, &session);
        held.retain(|name| !always.contains(name));
        held
    }

    #[test]
    fn numbers_are_told_by_place() {
        let zeros = "session from zeros";
        assert_eq!(met([0; 4], [255; 4]), [zeros]);
        assert_eq!(met([0; 4], [256, 0, 0, 0]), [zeros, "session from zeros past 255 grants"]);
        assert_eq!(met([0; 4], [0, 0, 0, 256]), [zeros, "session from zeros past 255 releases"]);
        let others = "session from tallies that are there";
        let below = [7, MOST - 2, 7, 7];
        assert_eq!(met(below, [300, 2, 300, 300]), [others]);
        let past = met(below, [300, 3, 300, 300]);
        assert_eq!(past, [others, "session past 4294967295 overrides"]);
        assert_eq!(met([7, 7, MOST, 7], [0, 0, 9, 0]), [others]);
        assert_eq!(met([MOST - 1; 4], [2; 4]).last(), SESSIONS.last().map(|(name, _)| name));
    }
}
