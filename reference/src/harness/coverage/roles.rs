//! Counts messages by type, outcome and the role of their sender, told or not, and says which of
//! these a run has to meet.

use std::fmt::Write;

use crate::access::{Role, ROLES};
use crate::harness::generate::goals::{Subject, POSSIBLE};
use crate::harness::situations::Met;
use crate::harness::Run;
use crate::message::{Kind, KINDS};
use crate::outcome::{Outcome, OUTCOMES};

/// How often each was met.
#[derive(Default)]
pub struct RoleCounts {
    counts: [[[u64; ROLES.len()]; OUTCOMES.len()]; KINDS.len()],
}

/// Type, outcome and role of a message.
type Cell = (Kind, Outcome, Role);

impl RoleCounts {
    /// Counts one message, unless its type is unknown.
    pub fn count(&mut self, met: &Met) {
        let (Subject::Type(kind), _) = Subject::of(met.call.message) else {
            return;
        };
        let role = met.role(met.call.channel);
        self.counts[kind as usize][met.outcome() as usize][role as usize] += 1;
    }

    fn met(&self, (kind, outcome, role): Cell) -> u64 {
        self.counts[kind as usize][outcome as usize][role as usize]
    }

    /// What should have been met and was not, or was met and should not have been.
    pub fn gaps(&self, run: Run) -> Vec<String> {
        let wrong = |cell: &Cell| is_possible(*cell, run) != (self.met(*cell) > 0);
        let describe = |cell: Cell| {
            let (kind, outcome, role) = cell;
            format!("{kind:?} {outcome:?}, sender {role:?}: {}", self.met(cell))
        };
        cells().into_iter().filter(wrong).map(describe).collect()
    }

    /// A table by outcome for each type: the count of the role that was met least.
    pub fn table(&self, run: Run) -> String {
        let mut text = "\nrole met least:".to_string();
        for kind in KINDS {
            write!(text, "\n{:12}", format!("{kind:?}")).unwrap();
            for outcome in OUTCOMES {
                let roles = ROLES.map(|role| (kind, outcome, role)).into_iter();
                let wanted = roles.filter(|cell| is_possible(*cell, run));
                let least = wanted.map(|cell| self.met(cell)).min();
                let cell = least.filter(|_| can_have(kind, outcome)).map(|least| least.to_string());
                write!(text, "{:>12}", cell.unwrap_or("-".to_string())).unwrap();
            }
        }
        text
    }
}

/// Every type with every outcome that it can have, and every role.
fn cells() -> Vec<Cell> {
    let outcomes = KINDS.iter().flat_map(|&kind| OUTCOMES.map(|outcome| (kind, outcome)));
    let possible = outcomes.filter(|&(kind, outcome)| can_have(kind, outcome));
    possible.flat_map(|(kind, outcome)| ROLES.map(|role| (kind, outcome, role))).collect()
}

fn can_have(kind: Kind, outcome: Outcome) -> bool {
    let mut rows = POSSIBLE.iter().filter(|(subject, _)| *subject == Subject::Type(kind));
    rows.any(|(_, outcomes)| outcomes.contains(&outcome))
}

/// Whether a message of this type and outcome can come from a host with this role. A recording has
/// no R1, no entry before a list, and no controller that is not permitted.
fn is_possible((kind, outcome, role): Cell, run: Run) -> bool {
    use Kind::{GetStatus, Request, WaitStatus};
    let library = run == Run::Calls;
    let permitted = role != Role::None;
    match (kind, outcome) {
        (_, Outcome::R1) => library,
        (_, Outcome::N1) => library || matches!(role, Role::None | Role::OpenProcessor),
        (Request, Outcome::N7) => role != Role::RecoveryMaster,
        (GetStatus | WaitStatus, Outcome::N7) => !permitted,
        _ if outcome <= Outcome::N7 => true,
        (Request | GetStatus | WaitStatus, _) => permitted,
        _ => permitted || library,
    }
}

#[cfg(test)]
mod tests {
    use super::*;
    use crate::access::{AccessMemory, ACCESS_WORDS};
    use crate::board::Board;
    use crate::manager::{handle, Call, Setup};
    use crate::record::RECORD_WORDS;

    /// Processor 1 with master 3 and secondaries 4, 5 and 6; the others are open.
    fn listed() -> AccessMemory {
        let mut access = [0; ACCESS_WORDS];
        access[..5].copy_from_slice(&[1, 3, 4, 5, 6]);
        access
    }

    fn count(counts: &mut RoleCounts, channel: u8, message: &[u8]) {
        let (board, access) = (Board::first(), listed());
        let setup = Setup { board: &board, access: &access };
        let call = Call { channel, message, status: &[] };
        let report = handle(setup, &mut [0; RECORD_WORDS], &call, &mut [0; 29]);
        counts.count(&Met { setup, call, report });
    }

    #[test]
    fn each_role_of_a_request_is_a_gap_until_it_is_met() {
        let mut counts = RoleCounts::default();
        let all = counts.gaps(Run::Recordings).len();
        for (host, processor) in [(3, 1), (4, 1), (5, 1), (6, 1), (13, 1), (13, 2)] {
            count(&mut counts, host, &[0, 0xC0, host, 0, 2, 0, 0, 0, processor]);
        }
        assert_eq!(counts.gaps(Run::Recordings).len(), all - 6);
        count(&mut counts, 7, &[0, 0xC0, 5, 0, 2, 0, 0, 0, 1]);
        assert_eq!(counts.gaps(Run::Recordings).len(), all - 7);
        count(&mut counts, 3, &[0, 0xC2, 3, 0, 2, 0, 0, 0, 1]);
        count(&mut counts, 3, &[0, 0xC0, 3, 0, 2, 0, 0]);
        assert_eq!(counts.gaps(Run::Recordings).len(), all - 7);
    }

    #[test]
    fn roles_that_cannot_be_are_gaps_too() {
        let mut counts = RoleCounts::default();
        counts.counts[Kind::Request as usize][Outcome::N7 as usize][1] = 2;
        let gap = "Request N7, sender RecoveryMaster: 2".to_string();
        assert!(
            counts.gaps(Run::Recordings).contains(&gap) && counts.gaps(Run::Calls).contains(&gap)
        );
    }
}
