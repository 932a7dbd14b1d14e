//! Compares long runs of calls on one set of memories, most of them requests, releases and
//! handovers that are carried out.

use crate::access::{row_words, LIST_FAULTS};
use crate::board::{Board, NO_HOST, ROWS};
use crate::description::take_board;
use crate::harness::compare::calls::{Calls, Memory};
use crate::harness::compare::ledger::{GRANTS, MOST, RELEASES};
use crate::harness::compare::pair::{Pair, Start};
use crate::harness::coverage::Coverage;
use crate::harness::generate::blocks::{any_block, good_block};
use crate::harness::generate::descriptions::good_fields;
use crate::harness::generate::drafts::{draft, Scene};
use crate::harness::generate::goals::{goals, pick_goal, Goal};
use crate::harness::generate::lists::{faulty_list, good_list};
use crate::harness::generate::random::Random;
use crate::harness::Run;
use crate::manager::{Call, Setup};
use crate::message::{
    ANSWER_BYTES, LONGEST_MESSAGE, MSG_PROC_HANDOVER, MSG_PROC_RELEASE, MSG_PROC_REQUEST,
};
use crate::outcome::Outcome;
use crate::session::{LONGEST_BLOCK, LONGEST_LIST};

/// Calls of a session behind its list.
const FEWEST_CALLS: usize = 300;
const MOST_CALLS: usize = 1200;

/// Of this many sessions two are longer and follow one processor: the first starts from zeros, and
/// the second is to take all four tallies to the largest number.
const LONGER_EVERY: u64 = 8;
const LONGER_CALLS: usize = 4000;

const MOST_WORDS: usize = 300;

/// Numbers that other sessions are to count past, if they do not start from zeros, and how far below
/// such a number they start at most.
const BORDERS: [u32; 6] = [MOST, MOST, MOST, 0x7FFF_FFFF, 0xFF_FFFF, 0xFFFF];
const MOST_BELOW: usize = 60;

/// Compares this many sessions of the model and of these calls.
pub fn compare_sessions(
    calls: &impl Calls,
    seed: u64,
    sessions: u64,
    coverage: &mut Coverage,
) -> Result<(), String> {
    let goals = goals();
    for number in 0..sessions {
        let mut random = Random::new(seed ^ 0x4C6F_6E67, number);
        let longer = number % LONGER_EVERY < 2;
        let start = match number % LONGER_EVERY {
            0 => [[0; 4]; ROWS],
            1 => start_below(&mut random, &[MOST]),
            _ if random.one_in(2) => [[0; 4]; ROWS],
            _ => start_below(&mut random, &BORDERS),
        };
        let pair = Pair::new(calls, start, coverage);
        let mut driver = Driver { random, pair, focus: Vec::new() };
        driver.run(&goals, longer).map_err(|text| {
            let made = driver.pair.made;
            format!("session {number}, call {made}: {text}")
        })?;
        let ended = driver.pair.ended();
        coverage.count_session(&ended);
    }
    Ok(())
}

/// Draws the calls of a session.
struct Driver<'a, C> {
    random: Random,
    pair: Pair<'a, C>,
    /// the processors that most messages are to name
    focus: Vec<u8>,
}

impl<C: Calls> Driver<'_, C> {
    fn run(&mut self, goals: &[Goal], longer: bool) -> Result<(), String> {
        self.pair.check()?;
        self.begin(goals)?;
        self.focus = if longer { self.contested() } else { self.any_focus() };
        let calls =
            if longer { LONGER_CALLS } else { self.random.between(FEWEST_CALLS, MOST_CALLS) };
        for _ in 0..calls {
            match self.random.below(60) {
                0 => self.offer_list()?,
                1 => self.offer_block()?,
                2 => self.offer_board()?,
                3..=8 => self.send_toward(goals)?,
                _ => self.send_change()?,
            }
        }
        Ok(())
    }

    /// A description or none, messages that no list allows, and then the list or block.
    fn begin(&mut self, goals: &[Goal]) -> Result<(), String> {
        if self.random.one_in(2) {
            let description = useful_description(&mut self.random);
            self.pair.board(&description)?;
        }
        for _ in 0..self.random.below(10) {
            self.send_toward(goals)?;
        }
        let list = good_list(&mut self.random, &self.pair.model.board);
        if self.random.one_in(2) {
            return self.pair.list(&list);
        }
        let abi = [self.random.u8(), self.random.u8()];
        let block = good_block(&mut self.random, &self.pair.model.board, abi, &list);
        self.pair.block(abi, &block)
    }

    /// One processor, those around one, or all of the board.
    fn any_focus(&mut self) -> Vec<u8> {
        let processors = self.pair.model.board.processors();
        let processor = self.random.pick(&processors);
        match self.random.below(4) {
            0 | 1 => vec![processor],
            2 => self.pair.clusters.around(&self.pair.model.board, processor),
            _ => processors,
        }
    }

    /// A processor that its master can take from a secondary, if there is one.
    fn contested(&mut self) -> Vec<u8> {
        let Memory { board, access, .. } = &self.pair.model;
        let is_contested = |&number: &u8| {
            let words = board.row_of(number).map_or(&[][..], |row| row_words(access, row));
            words.iter().any(|&host| host != NO_HOST && host != words[0])
        };
        let processors = board.processors();
        let contested: Vec<_> = processors.iter().copied().filter(is_contested).collect();
        vec![self.random.pick(if contested.is_empty() { &processors } else { &contested })]
    }

    fn offer_list(&mut self) -> Result<(), String> {
        let fault = self.random.pick(&LIST_FAULTS);
        let list = faulty_list(&mut self.random, &self.pair.model.board, fault, LONGEST_LIST);
        self.pair.list(&list)
    }

    fn offer_block(&mut self) -> Result<(), String> {
        let abi = [self.random.u8(), self.random.u8()];
        let block = any_block(&mut self.random, &self.pair.model.board, abi, LONGEST_BLOCK);
        self.pair.block(abi, &block)
    }

    fn offer_board(&mut self) -> Result<(), String> {
        let description = good_fields(&mut self.random).concat();
        self.pair.board(&description)
    }

    /// A message toward a goal that the state allows.
    fn send_toward(&mut self, goals: &[Goal]) -> Result<(), String> {
        let Memory { board, access, records } = &self.pair.model;
        let goal = pick_goal(&mut self.random, goals, access, Run::Calls);
        let setup = Setup { board, access };
        let focus = &self.focus;
        let scene = Scene { setup, records, status: &[], focus, most_words: MOST_WORDS };
        let draft = draft(&mut self.random, &scene, goal);
        let room = if goal.outcome == Outcome::R1 { ANSWER_BYTES - 1 } else { ANSWER_BYTES };
        let status = draft.status.unwrap_or_default();
        let call = Call { channel: draft.channel, message: &draft.message, status: &status };
        self.pair.message(&call, room)
    }

    /// A request, release or handover, mostly one that changes the controller.
    fn send_change(&mut self) -> Result<(), String> {
        let processor = self.any_processor();
        let row = self.pair.model.board.row_of(processor).unwrap_or(0);
        let (number, sender) = self.any_change(row);
        let mut message = number.to_le_bytes().to_vec();
        message.extend([sender, self.random.u8()]);
        let flags = self.random.pick_or(&[0, 2], Random::u32);
        message.extend(flags.to_le_bytes());
        let hosts = [self.named_host(row), self.named_host(row), sender];
        let other = hosts.into_iter().find(|&host| host != sender).unwrap_or(sender);
        message.extend([processor, self.random.pick(&[other, other, other, sender])]);
        let length = self.random.pick(&[message.len(), message.len(), LONGEST_MESSAGE]);
        message.resize(length, 0);
        let call = Call { channel: sender, message: &message, status: &[] };
        self.pair.message(&call, ANSWER_BYTES)
    }

    /// A type and a sender: mostly a request for a free processor or by its master, and what only
    /// the controller may do by that one.
    fn any_change(&mut self, row: usize) -> (u16, u8) {
        let master = row_words(&self.pair.model.access, row)[0] as u8;
        let controller = self.pair.controller(row);
        let kinds = match controller {
            0 => [MSG_PROC_REQUEST; 2],
            _ if controller == master => [MSG_PROC_HANDOVER; 2],
            _ => [MSG_PROC_REQUEST, MSG_PROC_HANDOVER],
        };
        let any = [MSG_PROC_REQUEST, MSG_PROC_HANDOVER, MSG_PROC_RELEASE, MSG_PROC_RELEASE];
        let number =
            if self.random.one_in(3) { self.random.pick(&any) } else { self.random.pick(&kinds) };
        let wanted = if number == MSG_PROC_REQUEST { master } else { controller };
        if controller == 0 || wanted == 0 || self.random.one_in(6) {
            return (number, self.named_host(row));
        }
        (number, wanted)
    }

    fn any_processor(&mut self) -> u8 {
        if self.random.one_in(12) {
            self.random.pick(&self.pair.model.board.processors())
        } else {
            self.random.pick(&self.focus)
        }
    }

    /// A host that the row names, or any that may send.
    fn named_host(&mut self, row: usize) -> u8 {
        let named = self.random.pick(row_words(&self.pair.model.access, row)) as u8;
        if named == 0 || self.random.one_in(12) {
            self.random.pick(&self.pair.model.board.senders()) as u8
        } else {
            named
        }
    }
}

/// Tallies by row, each somewhat below one of these numbers. In one of two sessions there are as
/// many grants as releases.
fn start_below(random: &mut Random, borders: &[u32]) -> Start {
    let level = random.one_in(2);
    [(); ROWS].map(|()| {
        let below = |random: &mut Random| random.pick(borders) - random.below(MOST_BELOW) as u32;
        let mut tallies = [(); 4].map(|()| below(random));
        if level {
            tallies[RELEASES] = tallies[GRANTS];
        }
        tallies
    })
}

/// A good description of a board with a processor and at least two hosts.
fn useful_description(random: &mut Random) -> Vec<u8> {
    loop {
        let description = good_fields(random).concat();
        let mut memory = Memory::new(Board::first());
        let taken = take_board(&mut memory.board, &memory.access, &description);
        let board = &memory.board;
        if taken.is_ok() && board.senders().len() > 1 && !board.processors().is_empty() {
            return description;
        }
    }
}

#[cfg(test)]
mod tests {
    use super::*;
    use crate::block::Abi;
    use crate::harness::compare::calls::Model;
    use crate::harness::compare::pair::{ROW_WORDS, TALLIES};

    /// The calls of the model, but for the records that a message leaves.
    struct Spoiled(fn(&Memory, &mut Memory));

    impl Calls for Spoiled {
        fn start(&self) -> Board {
            Model.start()
        }

        fn board(&self, memory: &mut Memory, description: &[u8]) -> String {
            Model.board(memory, description)
        }

        fn list(&self, memory: &mut Memory, list: &[u8]) -> String {
            Model.list(memory, list)
        }

        fn block(&self, memory: &mut Memory, abi: Abi, block: &[u8]) -> String {
            Model.block(memory, abi, block)
        }

        fn message(&self, memory: &mut Memory, call: &Call, answer: &mut [u8]) -> (String, u32) {
            let before = memory.clone();
            let told = Model.message(memory, call, answer);
            self.0(&before, memory);
            told
        }
    }

    /// The first words of the difference that is told of so spoiled calls.
    fn told(spoil: fn(&Memory, &mut Memory)) -> String {
        let told = compare_sessions(&Spoiled(spoil), 31, 40, &mut Coverage::default());
        let text = told.expect_err("the sessions differ");
        text.split(": ").nth(1).unwrap_or_default().to_string()
    }

    #[test]
    fn model_has_what_the_past_says() {
        let mut coverage = Coverage::default();
        assert_eq!(compare_sessions(&Model, 32, 100, &mut coverage), Ok(()));
        let mut gaps = coverage.gaps(Run::Calls);
        gaps.retain(|gap| gap.starts_with("session"));
        assert_eq!(gaps, [""; 0]);
    }

    #[test]
    fn one_word_of_any_row_is_noticed() {
        assert_eq!(told(|_, after| after.records[4] = after.records[4].wrapping_add(1)), "given");
        assert_eq!(told(|_, after| after.records[8 * 31 + 7] ^= 0x8000_0000), "given");
        assert_eq!(told(|_, after| after.records[8 * 30] = 3), "given");
    }

    /// Releases that start at 0 again behind the largest number.
    #[test]
    fn overflow_is_noticed() {
        let wraps = |before: &Memory, after: &mut Memory| {
            for row in (0..ROWS).map(|row| ROW_WORDS * row) {
                let freed = before.records[row] != 0 && after.records[row] == 0;
                let releases = row + TALLIES + RELEASES;
                if freed && before.records[releases] == MOST {
                    after.records[releases] = 0;
                }
            }
        };
        assert_eq!(told(wraps), "given");
    }
}
