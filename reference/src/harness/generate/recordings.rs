//! Makes session recordings: the boards, the list or block, status words and messages of a session,
//! sometimes with a bad or cut field at the end.

use crate::access::{accept_list, has_list, AccessMemory, ListFault, ACCESS_WORDS, LIST_FAULTS};
use crate::block::{accept_block, BLOCK_FAULTS};
use crate::board::Board;
use crate::description::{take_board, BOARD_FAULTS};
use crate::harness::clusters::Clusters;
use crate::harness::generate::blocks::{any_block, faulty_block, good_block};
use crate::harness::generate::clients::{client_list, client_status, mixed_clients};
use crate::harness::generate::descriptions::{
    any_description, faulty_description, first_fields, good_fields,
};
use crate::harness::generate::drafts::{any_focus, draft, Scene, LONGEST_RECORDED};
use crate::harness::generate::goals::{goals, pick_goal, Goal};
use crate::harness::generate::lists::{faulty_list, good_list};
use crate::harness::generate::random::Random;
use crate::harness::Run;
use crate::manager::{handle, Call, Setup};
use crate::message::ANSWER_BYTES;
use crate::outcome::Outcome;
use crate::record::{Record, RecordMemory, RECORD_WORDS};
use crate::session::{
    LONGEST_BLOCK, LONGEST_BOARD, LONGEST_LIST, RECORDED_ABI, TAG_BLOCK, TAG_BOARD, TAG_LIST,
    TAG_MESSAGE, TAG_STATUS,
};

/// The most status words that a recording can hold.
const MOST_WORDS: usize = 255;

/// Status answers at the end of a steered recording, which show what the records hold.
const LAST_LOOKS: usize = 6;

/// Messages that follow the same processors.
const FOCUS_MESSAGES: usize = 40;

/// One recording in this many is a long one.
const LONG_EVERY: u64 = 400;
const LONG_MESSAGES: usize = 2000;

/// One recording in this many holds what published boot code sends.
const CLIENTS_EVERY: u64 = 8;

/// A field of a recording: tag, length, body.
pub fn field(tag: u8, body: &[u8]) -> Vec<u8> {
    let mut bytes = vec![tag];
    bytes.extend((body.len() as u16).to_le_bytes());
    bytes.extend(body);
    bytes
}

/// A field with the channel's host and a message.
pub fn message_field(channel: u8, message: &[u8]) -> Vec<u8> {
    let mut body = vec![channel];
    body.extend(message);
    field(TAG_MESSAGE, &body)
}

/// A field with status words.
pub fn status_field(words: &[u32]) -> Vec<u8> {
    let body: Vec<u8> = words.iter().flat_map(|word| word.to_le_bytes()).collect();
    field(TAG_STATUS, &body)
}

/// The recording of this number, which with the seed is all that it depends on.
pub fn recording(seed: u64, number: u64) -> Vec<u8> {
    let mut recorder = Recorder::new(Random::new(seed, number));
    if number % LONG_EVERY == LONG_EVERY - 1 {
        recorder.steer(LONG_MESSAGES);
    } else if number % CLIENTS_EVERY == CLIENTS_EVERY - 1 {
        recorder.follow_clients();
    } else {
        let messages = recorder.random.between(20, 60);
        recorder.steer(messages);
    }
    recorder.finish()
}

/// A recording that is being made, and the state that it leads to.
struct Recorder {
    random: Random,
    bytes: Vec<u8>,
    board: Board,
    clusters: Clusters,
    focus: Vec<u8>,
    access: AccessMemory,
    records: RecordMemory,
    status: Vec<u32>,
}

impl Recorder {
    fn new(random: Random) -> Recorder {
        Recorder {
            random,
            bytes: Vec::new(),
            board: Board::first(),
            clusters: Clusters::default(),
            focus: Vec::new(),
            access: [0; ACCESS_WORDS],
            records: [0; RECORD_WORDS],
            status: Vec::new(),
        }
    }

    fn board(&mut self, description: &[u8]) {
        self.bytes.extend(field(TAG_BOARD, description));
        if take_board(&mut self.board, &self.access, description).is_ok() {
            self.clusters = Clusters::of(description);
        }
    }

    fn list(&mut self, list: &[u8]) {
        self.bytes.extend(field(TAG_LIST, list));
        // The verdict does not matter here: the state is right either way.
        let _ = accept_list(&self.board, &mut self.access, list);
    }

    fn block(&mut self, block: &[u8]) {
        self.bytes.extend(field(TAG_BLOCK, block));
        // Nor does it here.
        let _ = accept_block(&self.board, &mut self.access, RECORDED_ABI, block);
    }

    /// The list, or a block with it.
    fn list_or_block(&mut self, list: &[u8]) {
        if self.random.one_in(2) {
            self.list(list);
        } else {
            let block = good_block(&mut self.random, &self.board, RECORDED_ABI, list);
            self.block(&block);
        }
    }

    fn status(&mut self, words: Vec<u32>) {
        self.bytes.extend(status_field(&words));
        self.status = words;
    }

    fn message(&mut self, channel: u8, message: &[u8]) -> Outcome {
        self.bytes.extend(message_field(channel, message));
        let call = Call { channel, message, status: &self.status };
        let setup = Setup { board: &self.board, access: &self.access };
        handle(setup, &mut self.records, &call, &mut [0; ANSWER_BYTES]).outcome
    }

    /// Descriptions, messages and refused lists and blocks before the list or block, then this many
    /// goals one after the other. Of two recordings one has no description before its list, so that
    /// the first board stands.
    fn steer(&mut self, messages: usize) {
        let goals = goals();
        let described = self.random.one_in(2);
        for _ in 0..self.random.below(5) {
            self.approach(&goals);
            match self.random.below(6) {
                0 if described => self.offer_board(),
                0 | 1 => self.faulty_list(&LIST_FAULTS[1..]),
                2 | 3 => self.faulty_blocks(),
                _ => {}
            }
        }
        if described {
            self.last_boards();
        }
        if !self.random.one_in(20) {
            let list = good_list(&mut self.random, &self.board);
            self.list_or_block(&list);
        }
        for number in 0..messages {
            if number % FOCUS_MESSAGES == 0 {
                self.focus = any_focus(&mut self.random, &self.board, &self.clusters);
                self.work_together();
            }
            self.steer_once(&goals);
        }
        for _ in 0..LAST_LOOKS {
            self.send_toward(Goal::STATUS);
        }
    }

    /// Requests some of the processors in focus, and sets and reads control words through them.
    fn work_together(&mut self) {
        if self.focus.is_empty() {
            return;
        }
        for _ in 0..self.random.between(1, 4) {
            let processor = Some(self.random.pick(&self.focus));
            self.send_toward(Goal { processor, ..Goal::REQUEST });
        }
        for _ in 0..3 {
            let processor = self.random.pick(&self.focus);
            let look = self.send_toward(Goal::set_control(processor, Outcome::OK));
            self.send_toward(look.unwrap_or(Goal::STATUS));
            let other = self.random.pick(&self.focus);
            self.send_toward(Goal::set_control(other, Outcome::N7));
        }
    }

    /// A good description, one with a fault, or noise.
    fn offer_board(&mut self) {
        let description = any_description(&mut self.random, 6, LONGEST_BOARD);
        self.board(&description);
    }

    /// The board for the list: mostly a good one, sometimes with refused ones before or behind it.
    fn last_boards(&mut self) {
        for _ in 0..self.random.pick(&[0, 0, 1, 2]) {
            self.offer_board();
        }
        if !self.random.one_in(8) {
            let fields = good_fields(&mut self.random);
            self.board(&fields.concat());
        }
        for _ in 0..self.random.pick(&[0, 0, 1]) {
            let fault = self.random.pick(&BOARD_FAULTS[1..]);
            let description = faulty_description(&mut self.random, fault, LONGEST_BOARD);
            self.board(&description);
        }
    }

    /// Blocks with faults. A board without hosts may take one, as it has none for a loop.
    fn faulty_blocks(&mut self) {
        for _ in 0..self.random.between(1, 6) {
            let fault = self.random.pick(&BLOCK_FAULTS[1..]);
            let random = &mut self.random;
            let block = faulty_block(random, &self.board, RECORDED_ABI, fault, LONGEST_BLOCK);
            self.block(&block);
        }
    }

    fn faulty_list(&mut self, faults: &[ListFault]) {
        let fault = self.random.pick(faults);
        let list = faulty_list(&mut self.random, &self.board, fault, LONGEST_LIST);
        self.list(&list);
    }

    /// Mostly a message with a goal; now and then another list, block or board, other words or mere
    /// noise.
    fn steer_once(&mut self, goals: &[Goal]) {
        match self.random.below(60) {
            0 => self.faulty_list(&LIST_FAULTS),
            1 => {
                let count = self.random.between(0, MOST_WORDS);
                let words = self.random.words(count);
                self.status(words);
            }
            2 => {
                let noise = self.random.noise(LONGEST_RECORDED);
                let channel = self.random.u8();
                self.message(channel, &noise);
            }
            3 if has_list(&self.access) => self.offer_board(),
            4 if has_list(&self.access) => {
                let block = any_block(&mut self.random, &self.board, RECORDED_ABI, LONGEST_BLOCK);
                self.block(&block);
            }
            _ => self.approach(goals),
        }
    }

    /// One message toward a goal that the state allows, with a request before it where control is
    /// needed and often lacking, and sometimes a look at the records behind it: through another
    /// core where a word of a cluster was set.
    fn approach(&mut self, goals: &[Goal]) {
        let goal = pick_goal(&mut self.random, goals, &self.access, Run::Recordings);
        if goal.needs_controller() && self.is_often_free() {
            self.send_toward(Goal::REQUEST);
        }
        let look = self.send_toward(goal);
        if has_list(&self.access) && goal.outcome == Outcome::OK && self.random.one_in(2) {
            self.send_toward(look.unwrap_or(Goal::STATUS));
        }
    }

    /// Whether more than one of the processors in focus is free, or of all if none is in focus.
    fn is_often_free(&self) -> bool {
        let all = self.board.processors();
        let followed = if self.focus.is_empty() { &all } else { &self.focus };
        let rows = followed.iter().filter_map(|&number| self.board.row_of(number));
        let is_free = |&row: &usize| Record::load(&self.board, &self.records, row).is_free();
        rows.filter(is_free).count() > 1
    }

    /// Sends a message toward the goal; gives the look at another core of the cluster that would
    /// show whether what it has set is shared.
    fn send_toward(&mut self, goal: Goal) -> Option<Goal> {
        let scene = Scene {
            setup: Setup { board: &self.board, access: &self.access },
            records: &self.records,
            status: &self.status,
            focus: &self.focus,
            most_words: MOST_WORDS,
        };
        let draft = draft(&mut self.random, &scene, goal);
        if let Some(words) = draft.status {
            self.status(words);
        }
        let outcome = self.message(draft.channel, &draft.message);
        let place = (&self.board, &self.clusters);
        Goal::look_beside(&mut self.random, place, &draft.message, outcome)
    }

    /// What published boot code sends, sometimes under a list that was made for something else. It
    /// meets the first board, which some of these recordings describe once more.
    fn follow_clients(&mut self) {
        if self.random.one_in(4) {
            self.offer_board();
            self.board(&first_fields().concat());
        }
        let list = if self.random.one_in(4) {
            good_list(&mut self.random, &self.board)
        } else {
            client_list()
        };
        self.list_or_block(&list);
        for (channel, message) in mixed_clients(&mut self.random) {
            if self.random.one_in(12) {
                let words = client_status(&mut self.random);
                self.status(words);
            }
            self.message(channel, &message);
        }
    }

    /// The whole recording. Half of them end in a bad or a cut field.
    fn finish(mut self) -> Vec<u8> {
        match self.random.below(4) {
            0 => self.add_bad_field(),
            1 => {
                let cut = self.random.below(self.bytes.len().min(600)) + 1;
                self.bytes.truncate(self.bytes.len() - cut);
            }
            _ => {}
        }
        self.bytes
    }

    /// A bad tag or a bad length, and behind it a good field that must not be read.
    fn add_bad_field(&mut self) {
        let long = self.random.between(1021, 65_535);
        let bad = match self.random.below(6) {
            0 => header_of(self.random.pick_or(&[0, 5], |r| r.between(7, 255) as u8), 0),
            1 => header_of(TAG_LIST, self.random.pick(&[513, long])),
            2 => header_of(TAG_BOARD, self.random.pick(&[513, 518, long])),
            3 => header_of(TAG_BLOCK, self.random.pick(&[513, long])),
            4 => header_of(TAG_STATUS, self.random.pick(&[1, 2, 3, 6, 1019, 1021, 1024, long])),
            _ => header_of(TAG_MESSAGE, self.random.pick(&[0, 513, long])),
        };
        self.bytes.extend(bad);
        self.message(3, &[0; 9]);
    }
}

/// The tag and length that start a field.
pub fn header_of(tag: u8, length: usize) -> [u8; 3] {
    let length = (length as u16).to_le_bytes();
    [tag, length[0], length[1]]
}

#[cfg(test)]
mod tests {
    use super::*;
    use crate::block::{BLOCK_BYTES, HIERARCHY_AT, LIST_AT};
    use crate::harness::coverage::Coverage;
    use crate::harness::edges::recordings::edge_recordings;
    use crate::session::lines_of;

    #[test]
    fn recordings_leave_no_gap() {
        let mut coverage = Coverage::default();
        let random = (0..1200).map(|number| recording(8, number));
        for recording in edge_recordings().into_iter().chain(random) {
            coverage.count_recording(&recording);
        }
        assert_eq!(coverage.gaps(Run::Recordings), [""; 0]);
    }

    /// The recording with the list alone in place of each whole block.
    fn with_lone_lists(mut recording: &[u8]) -> Vec<u8> {
        let mut changed = Vec::new();
        while let [tag, low, high, rest @ ..] = recording {
            let length = usize::from(u16::from_le_bytes([*low, *high]));
            let (body, behind) = rest.split_at(length.min(rest.len()));
            changed.extend(match (*tag, body.len()) {
                (TAG_BLOCK, BLOCK_BYTES) => field(TAG_LIST, &body[LIST_AT..HIERARCHY_AT]),
                _ => recording[..recording.len() - behind.len()].to_vec(),
            });
            recording = behind;
        }
        changed.extend(recording);
        changed
    }

    /// The lines of messages, and how many of blocks and lists were accepted.
    fn message_lines(recording: &[u8]) -> (Vec<String>, usize) {
        let text = lines_of(recording);
        let (offers, messages): (Vec<_>, Vec<_>) =
            text.lines().map(str::to_string).partition(|line| line.starts_with(['b', 'l']));
        let accepted =
            offers.iter().filter(|line| ["block OK", "list OK"].contains(&line.as_str()));
        (messages, accepted.count())
    }

    /// In recordings of published boot code no block is refused before the list.
    #[test]
    fn a_block_leads_to_the_answers_of_its_list() {
        let clients = (1..LONG_EVERY / CLIENTS_EVERY).map(|count| count * CLIENTS_EVERY - 1);
        for number in clients {
            let recording = recording(9, number);
            let lone = with_lone_lists(&recording);
            assert_eq!(message_lines(&recording), message_lines(&lone), "{number}");
        }
    }
}
