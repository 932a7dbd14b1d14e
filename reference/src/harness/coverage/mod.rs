//! Counts what a run has reached, and says what it has not.

mod blocks;
mod faults;
mod pieces;
mod roles;
mod verdicts;

pub use pieces::PieceCoverage;

use std::collections::BTreeSet;
use std::fmt::Write;

use crate::access::LIST_FAULTS;
use crate::description::{BoardFault, BOARD_FAULTS};
use crate::harness::clusters::Clusters;
use crate::harness::generate::goals::{goals, Subject, POSSIBLE, SUBJECTS};
use crate::harness::situations::{
    Field, History, Listed, LongSession, Met, Observed, Offer, Offered, Seen, Situations, Watch,
};
use crate::harness::Run;
use crate::message::HEADER_BYTES;
use crate::outcome::{Outcome, OUTCOMES};
use crate::session::{call_of, write_line, Event, Session, RECORDED_ABI};
use blocks::BlockCounts;
use roles::RoleCounts;
use verdicts::Verdicts;

/// How often each combination, role, verdict and situation was reached, and with which processors.
pub struct Coverage {
    messages: [[[u64; 2]; OUTCOMES.len()]; SUBJECTS],
    /// the processor bytes that were looked up
    processors: BTreeSet<u8>,
    roles: RoleCounts,
    lists: Verdicts,
    boards: Verdicts,
    blocks: BlockCounts,
    situations: Situations,
}

impl Default for Coverage {
    fn default() -> Coverage {
        Coverage {
            messages: [[[0; 2]; OUTCOMES.len()]; SUBJECTS],
            processors: BTreeSet::new(),
            roles: RoleCounts::default(),
            lists: Verdicts::new("list", LIST_FAULTS.map(|fault| format!("{fault:?}"))),
            boards: Verdicts::new("board", BOARD_FAULTS.map(|fault| format!("{fault:?}"))),
            blocks: BlockCounts::default(),
            situations: Situations::default(),
        }
    }
}

impl Coverage {
    /// Replays a recording through the model and counts what it reaches; gives the lines.
    pub fn count_recording(&mut self, recording: &[u8]) -> Vec<u8> {
        let mut lines = Vec::new();
        let mut session = Session::new(recording);
        let (mut watch, mut history) = (Watch::default(), History::default());
        let mut before = session.state.records;
        // Reading from memory and writing to it do not fail.
        while let Ok(Some(event)) = session.next_event() {
            let _ = write_line(&mut lines, &event);
            self.situations.count(Observed::Field(&Field { before: &history, event: &event }));
            history.follow(&event);
            match event {
                Event::List(verdict) => {
                    let (board, list) = (&session.state.board, session.body());
                    self.count_list(&Listed { board, list, verdict });
                }
                Event::Block(verdict) => {
                    let (board, abi, block) = (&session.state.board, RECORDED_ABI, session.body());
                    self.count_block(&Offered { board, abi, block, verdict });
                }
                Event::Message(report, _) => {
                    let call = call_of(session.body(), &session.state.status);
                    let seen = watch.see(session.state.setup(), &before, &call, report);
                    let met = Met { setup: session.state.setup(), call, report };
                    self.count_message(&met, seen.as_ref());
                }
                Event::Board(verdict) => {
                    self.count_board(session.body(), verdict);
                    if verdict.is_ok() {
                        watch = Watch::new(&Clusters::of(session.body()));
                    }
                }
                Event::Status | Event::Bad | Event::Cut => {}
            }
            before = session.state.records;
        }
        lines
    }

    /// Counts one message with its outcome and, if it had a whole order, what was seen of it.
    pub fn count_message(&mut self, met: &Met, seen: Option<&Seen>) {
        let (subject, asked) = Subject::of(met.call.message);
        self.messages[subject.index()][met.outcome() as usize][usize::from(asked)] += 1;
        self.roles.count(met);
        if met.outcome() >= Outcome::N6 {
            self.processors.insert(met.call.message[HEADER_BYTES]);
        }
        self.situations.count(Observed::Message(met));
        if let Some(seen) = seen {
            self.situations.count(Observed::Order(seen));
        }
    }

    /// Counts one list with its verdict.
    pub fn count_list(&mut self, listed: &Listed) {
        self.lists.count(LIST_FAULTS.iter().position(|&fault| listed.verdict == Err(fault)));
        self.situations.count(Observed::List(listed));
    }

    /// Counts one block with its verdict.
    pub fn count_block(&mut self, offered: &Offered) {
        self.blocks.count(offered);
        self.situations.count(Observed::Block(offered));
    }

    /// Counts one description with its verdict.
    pub fn count_board(&mut self, description: &[u8], verdict: Result<(), BoardFault>) {
        self.boards.count(BOARD_FAULTS.iter().position(|&fault| verdict == Err(fault)));
        self.situations.count(Observed::Board(&Offer::new(description, verdict)));
    }

    /// Counts one long session, whose calls are counted besides.
    pub fn count_session(&mut self, session: &LongSession) {
        self.situations.count(Observed::Session(session));
    }

    /// All messages counted.
    pub fn message_total(&self) -> u64 {
        self.messages.iter().flatten().flatten().sum()
    }

    /// All lists, blocks and descriptions counted.
    pub fn offer_total(&self) -> u64 {
        [&self.lists, &self.boards, &self.blocks.verdicts].map(Verdicts::total).iter().sum()
    }

    /// What should have been reached and was not, or was reached and should not have been. R1 is
    /// expected only of calls to the static library.
    pub fn gaps(&self, run: Run) -> Vec<String> {
        [
            self.message_gaps(run),
            self.processor_gaps(),
            self.lists.gaps(),
            self.boards.gaps(),
            self.blocks.gaps(),
            self.roles.gaps(run),
            self.situations.gaps(run),
        ]
        .concat()
    }

    fn message_gaps(&self, run: Run) -> Vec<String> {
        let mut expected = [[[false; 2]; OUTCOMES.len()]; SUBJECTS];
        for goal in goals().iter().filter(|goal| run == Run::Calls || goal.outcome != Outcome::R1) {
            expected[goal.subject.index()][goal.outcome as usize][usize::from(goal.asked)] = true;
        }
        let mut gaps = Vec::new();
        for (subject, _) in POSSIBLE {
            for (place, asked) in (0..2 * OUTCOMES.len()).map(|n| (n / 2, n % 2)) {
                let count = self.messages[subject.index()][place][asked];
                if expected[subject.index()][place][asked] != (count > 0) {
                    let wording = if asked == 1 { "asked" } else { "not asked" };
                    let outcome = OUTCOMES[place];
                    gaps.push(format!("{} {outcome:?} {wording}: {count}", subject.name()));
                }
            }
        }
        gaps
    }

    fn processor_gaps(&self) -> Vec<String> {
        let never = (0..=255).filter(|byte| !self.processors.contains(byte));
        never.map(|byte| format!("processor {byte}: 0")).collect()
    }

    /// A table by outcome: not asked / asked for each type, then the verdicts, the roles and the
    /// situations that are expected.
    pub fn table(&self, run: Run) -> String {
        let mut text = format!("{:12}", "");
        for outcome in OUTCOMES {
            write!(text, "{:>12}", format!("{outcome:?}")).unwrap();
        }
        for (subject, _) in POSSIBLE {
            write!(text, "\n{:12}", subject.name()).unwrap();
            for [silent, asked] in self.messages[subject.index()] {
                let cell =
                    if silent + asked == 0 { "-".to_string() } else { format!("{silent}/{asked}") };
                write!(text, "{cell:>12}").unwrap();
            }
        }
        text + &self.lists.table()
            + &self.boards.table()
            + &self.blocks.table()
            + &self.roles.table(run)
            + &self.situations.table(run)
    }
}

#[cfg(test)]
mod tests {
    use super::*;
    use crate::access::{ListFault, Role};
    use crate::bench::cases;
    use crate::board::Board;
    use crate::harness::compare::cases::recording_of;
    use crate::manager::{Call, Setup};
    use crate::outcome::Report;

    fn met<'a>(setup: Setup<'a>, message: &'a [u8], outcome: Outcome) -> Met<'a> {
        let report = Report { outcome, role: Role::None, checks: 0, microseconds: 0, written: 0 };
        Met { setup, call: Call { channel: message[2], message, status: &[] }, report }
    }

    /// What one fixed case reaches.
    fn of_case(name: &str) -> Coverage {
        let case = cases().into_iter().find(|case| case.name == name).unwrap();
        let mut coverage = Coverage::default();
        coverage.count_recording(&recording_of(&case).0);
        coverage
    }

    #[test]
    fn gaps_name_the_missing_and_the_impossible() {
        let (mut coverage, board, access) = (Coverage::default(), Board::first(), [0; 129]);
        let setup = Setup { board: &board, access: &access };
        let all = coverage.gaps(Run::Calls).len();
        let named = coverage.situations.gaps(Run::Calls).len();
        let (roles, blocks) = (coverage.roles.gaps(Run::Calls).len(), coverage.blocks.gaps().len());
        assert_eq!(all, goals().len() + 256 + 9 + 8 + roles + blocks + named);
        let request = [0, 0xC0, 3, 0, 2, 0, 0, 0, 1];
        coverage.count_message(&met(setup, &request, Outcome::OK), None);
        coverage.count_message(&met(setup, &request[..8], Outcome::N4), None);
        coverage.count_list(&Listed { board: &board, list: &[], verdict: Err(ListFault::A8) });
        coverage.count_board(&[3], Err(BoardFault::A1));
        // Each message also has the role of its sender, for which every processor is open.
        assert_eq!(coverage.gaps(Run::Calls).len(), all - 7);
        let silent = [0, 0xC0, 3, 0, 0, 0, 0, 0, 1];
        coverage.count_message(&met(setup, &silent, Outcome::N9), None);
        assert!(coverage.gaps(Run::Calls).contains(&"Request N9 not asked: 1".to_string()));
    }

    #[test]
    fn shared_words_are_counted_by_direction() {
        let coverage = of_case("control set through 32 shows in the status of 33");
        let missing = |gap: &str| coverage.gaps(Run::Recordings).contains(&gap.to_string());
        assert!(!missing("control set through 32, read through 33: 0"));
        assert!(missing("control set through 33, read through 32: 0"));
        assert!(!missing("control set through 32, 33 free: 0"));
        assert!(missing("control set through 32, 33 of another host: 0"));
    }

    #[test]
    fn hosts_in_several_places_are_counted_by_place() {
        let coverage = of_case("host in several places");
        let missing = |gap: &str| coverage.gaps(Run::Calls).contains(&gap.to_string());
        let met = ["secondary 0 and 1", "secondary 0 and 2", "secondary 1 and 2 refused"];
        assert!(met.iter().all(|gap| !missing(&format!("request by {gap}: 0"))));
        let not_met = ["secondary 0 and 1 refused", "all secondaries", "secondary 1, 0 unused"];
        assert!(not_met.iter().all(|gap| missing(&format!("request by {gap}: 0"))));
        assert!(missing("master's word alike in the low byte: 0"));
        assert!(missing("Request OK, sender Secondary2: 0"));
    }
}
