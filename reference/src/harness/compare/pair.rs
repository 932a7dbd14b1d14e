//! The model and another implementation side by side on memories of their own: every call is made
//! both ways, and behind it all tallies are compared with what the past messages say.

use crate::access::accept_list;
use crate::block::{accept_block, Abi};
use crate::board::{Board, ROWS};
use crate::description::take_board;
use crate::harness::clusters::Clusters;
use crate::harness::compare::calls::{line_of, message_line, same, Calls, Memory};
use crate::harness::compare::ledger::{Account, Ledger, GRANTS, MOST, RELEASES};
use crate::harness::coverage::Coverage;
use crate::harness::situations::{Listed, LongSession, Met, Offered, Watch};
use crate::manager::{handle, Call, Setup};
use crate::session::Event;

/// Where a row of record memory has its controller and its tallies.
pub const ROW_WORDS: usize = 8;
pub const TALLIES: usize = 4;
const CONTROLLER: usize = 0;

/// Tallies by row, in the order of the record.
pub type Start = [[u32; 4]; ROWS];

/// Both, and what the past messages say.
pub struct Pair<'a, C> {
    calls: &'a C,
    coverage: &'a mut Coverage,
    pub model: Memory,
    given: Memory,
    /// the tallies in the memory before any call
    start: Start,
    ledger: Ledger,
    /// what the ledger says, by row
    accounts: [Account; ROWS],
    watch: Watch,
    pub clusters: Clusters,
    ended: LongSession,
    /// calls made so far
    pub made: usize,
}

impl<'a, C: Calls> Pair<'a, C> {
    /// Both on the first board, with all words zero but for these tallies.
    pub fn new(calls: &'a C, start: Start, coverage: &'a mut Coverage) -> Pair<'a, C> {
        let mut model = Memory::new(Board::first());
        for (row, tallies) in start.iter().enumerate() {
            model.records[ROW_WORDS * row + TALLIES..][..4].copy_from_slice(tallies);
        }
        let given = Memory { board: calls.start(), ..model.clone() };
        Pair {
            calls,
            coverage,
            model,
            given,
            start,
            ledger: Ledger::default(),
            accounts: [Account::default(); ROWS],
            watch: Watch::default(),
            clusters: Clusters::default(),
            ended: LongSession::default(),
            made: 0,
        }
    }

    /// Who controls the processor in a row, by its past; 0 for none.
    pub fn controller(&self, row: usize) -> u8 {
        self.accounts[row].controller
    }

    /// Offers a list to both.
    pub fn list(&mut self, list: &[u8]) -> Result<(), String> {
        let Memory { board, access, .. } = &mut self.model;
        let verdict = accept_list(board, access, list);
        self.coverage.count_list(&Listed { board, list, verdict });
        self.ended.refused[0] += u64::from(verdict.is_err() && self.has_counted());
        let given = self.calls.list(&mut self.given, list);
        self.compare(line_of(&Event::List(verdict)), given)
    }

    /// Offers a block to both.
    pub fn block(&mut self, abi: Abi, block: &[u8]) -> Result<(), String> {
        let Memory { board, access, .. } = &mut self.model;
        let verdict = accept_block(board, access, abi, block);
        self.coverage.count_block(&Offered { board, abi, block, verdict });
        self.ended.in_block |= verdict.is_ok();
        self.ended.refused[1] += u64::from(verdict.is_err() && self.has_counted());
        let given = self.calls.block(&mut self.given, abi, block);
        self.compare(line_of(&Event::Block(verdict)), given)
    }

    /// Offers a description to both.
    pub fn board(&mut self, description: &[u8]) -> Result<(), String> {
        let verdict = take_board(&mut self.model.board, &self.model.access, description);
        self.coverage.count_board(description, verdict);
        if verdict.is_ok() {
            self.ended.described = true;
            self.clusters = Clusters::of(description);
            self.watch = Watch::new(&self.clusters);
        }
        self.ended.refused[2] += u64::from(verdict.is_err() && self.has_counted());
        let given = self.calls.board(&mut self.given, description);
        self.compare(line_of(&Event::Board(verdict)), given)
    }

    /// Sends a message to both, with an answer buffer of this length, and adds it to the past.
    pub fn message(&mut self, call: &Call, room: usize) -> Result<(), String> {
        let before = self.model.records;
        let [mut answer, mut given_answer] = [(); 2].map(|()| vec![0xEE; room]);
        let Memory { board, access, records } = &mut self.model;
        let setup = Setup { board, access };
        let report = handle(setup, records, call, &mut answer);
        let (line, role) = self.calls.message(&mut self.given, call, &mut given_answer);
        let seen = self.watch.see(setup, &before, call, report);
        self.coverage.count_message(&Met { setup, call: *call, report }, seen.as_ref());
        self.ledger.add(call.message, report.outcome);
        if let Some(seen) = seen {
            self.accounts[seen.row] = self.ledger.account(seen.processor);
        }
        self.compare(message_line(report, &answer), line)
            .and_then(|()| same("role", &report.role.number(), &role))
            .and_then(|()| same("answer buffer", &answer, &given_answer))
            .map_err(|text| format!("{text}\n channel {}, {:02x?}", call.channel, call.message))
    }

    /// Compares the lines of a call and all that it left.
    fn compare(&mut self, expected: String, given: String) -> Result<(), String> {
        self.made += 1;
        same("line", &expected, &given)?;
        self.check()
    }

    /// Whether each of the two has the tallies that the past says, and both have the same memories.
    pub fn check(&self) -> Result<(), String> {
        for row in 0..ROWS {
            self.check_row(&self.model, row).map_err(|text| format!("model: {text}"))?;
            self.check_row(&self.given, row).map_err(|text| format!("given: {text}"))?;
        }
        same("memory", &self.model, &self.given)
    }

    fn check_row(&self, memory: &Memory, row: usize) -> Result<(), String> {
        let words = &memory.records[ROW_WORDS * row..][..ROW_WORDS];
        let Account { controller, counts } = self.accounts[row];
        let start = self.start[row];
        let expected: [u32; 4] = std::array::from_fn(|place| {
            let sum = u64::from(start[place]) + counts[place];
            sum.min(u64::from(MOST)) as u32
        });
        if words[TALLIES..] != expected || words[CONTROLLER] != u32::from(controller) {
            return Err(format!("row {row} has {words:?}, by its past {controller}, {expected:?}"));
        }
        // Free at the start, with as many grants as releases: the difference is the session's own.
        if start[GRANTS] == start[RELEASES] && !has_the_difference(words) {
            return Err(format!("row {row} has {words:?}, not the difference of held and free"));
        }
        Ok(())
    }

    /// Whether some message has given a processor a controller.
    fn has_counted(&self) -> bool {
        self.accounts.iter().any(|account| *account != Account::default())
    }

    /// What the session came to.
    pub fn ended(mut self) -> LongSession {
        let rows = self.start.iter().zip(&self.accounts);
        self.ended.rows = rows.map(|(start, account)| (*start, account.counts)).collect();
        self.ended.apart = self.counted_apart();
        self.ended
    }

    /// Whether two processors with one control word have counts, and different ones.
    fn counted_apart(&self) -> bool {
        let board = &self.model.board;
        let counts = |number: u8| board.row_of(number).map(|row| self.accounts[row].counts);
        let apart = |one: u8, other: u8| {
            let [one, other] = [one, other].map(|number| counts(number).unwrap_or_default());
            one != [0; 4] && other != [0; 4] && one != other
        };
        let beside =
            |number: u8| board.sharers(number).into_iter().any(|other| apart(number, other));
        board.processors().into_iter().any(beside)
    }
}

/// Whether grants minus releases is 1 in the row of a held processor and 0 in that of a free one,
/// as far as neither has come to the largest number.
fn has_the_difference(words: &[u32]) -> bool {
    let [grants, releases] = [GRANTS, RELEASES].map(|place| words[TALLIES + place]);
    let held = u64::from(words[CONTROLLER] != 0);
    grants == MOST || releases == MOST || u64::from(grants) == u64::from(releases) + held
}

#[cfg(test)]
mod tests {
    use super::*;

    #[test]
    fn difference_tells_held_from_free() {
        let holds = |controller, grants, releases| {
            has_the_difference(&[controller, 0, 0, 0, grants, 9, 9, releases])
        };
        assert!(holds(0, 0, 0) && holds(0, 7, 7) && holds(3, 1, 0) && holds(3, 8, 7));
        assert!(!holds(0, 8, 7) && !holds(3, 7, 7) && !holds(0, 7, 8) && !holds(3, 9, 7));
        assert!(holds(3, MOST - 1, MOST - 2) && !holds(3, MOST - 1, MOST - 1));
        assert!(holds(0, MOST, 7) && holds(3, 7, MOST) && holds(3, MOST, MOST));
    }
}
