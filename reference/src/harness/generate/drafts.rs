//! Makes messages that steer toward a goal. Faults that are tested later than the goal are put in
//! at random, so that the order of the tests is tried as well.

use crate::access::row_words;
use crate::board::Board;
use crate::harness::clusters::Clusters;
use crate::harness::generate::goals::{Goal, Subject};
use crate::harness::generate::random::Random;
use crate::manager::{handle, Call, Setup};
use crate::message::{Kind, ANSWER_BYTES, HEADER_BYTES, LONGEST_MESSAGE};
use crate::outcome::{Outcome, Report};
use crate::record::{Record, RecordMemory};

/// The longest message that a recording can hold.
pub const LONGEST_RECORDED: usize = 511;

const TRIES: usize = 24;

/// The state that a message will meet.
#[derive(Clone, Copy)]
pub struct Scene<'a> {
    pub setup: Setup<'a>,
    pub records: &'a RecordMemory,
    pub status: &'a [u32],
    /// the processors that most messages are to name; none for any
    pub focus: &'a [u8],
    /// the most status words that can be given
    pub most_words: usize,
}

/// A message, and the status words it is meant to meet if the ones that stand will not do.
pub struct Draft {
    pub channel: u8,
    pub message: Vec<u8>,
    pub status: Option<Vec<u32>>,
}

impl Draft {
    /// The report in this scene. Nothing is changed.
    fn report(&self, scene: &Scene) -> Report {
        let status = self.status.as_deref().unwrap_or(scene.status);
        let call = Call { channel: self.channel, message: &self.message, status };
        handle(scene.setup, &mut scene.records.clone(), &call, &mut [0; ANSWER_BYTES])
    }

    /// Whether the goal is reached. R1 depends on the answer buffer, so any message will do.
    fn reaches(&self, scene: &Scene, goal: Goal) -> bool {
        if goal.outcome == Outcome::R1 {
            return true;
        }
        let report = self.report(scene);
        report.outcome == goal.outcome && goal.role.is_none_or(|role| report.role == role)
    }
}

/// A message that reaches the goal, as far as some tries find one.
pub fn draft(random: &mut Random, scene: &Scene, goal: Goal) -> Draft {
    let (senders, processors) = (scene.setup.board.senders(), scene.setup.board.processors());
    let mut drafter = Drafter { random, scene: *scene, goal, senders, processors };
    let mut draft = drafter.attempt();
    for _ in 1..TRIES {
        if draft.reaches(scene, goal) {
            break;
        }
        draft = drafter.attempt();
    }
    // Half of the time the words that stand are kept where they do as well.
    let standing = draft.status.take_if(|_| random.one_in(2));
    if standing.is_some() && !draft.reaches(scene, goal) {
        draft.status = standing;
    }
    draft
}

/// Processors to follow for a while: some that belong together as far as a few tries find them, or
/// none in particular.
pub fn any_focus(random: &mut Random, board: &Board, clusters: &Clusters) -> Vec<u8> {
    let processors = board.processors();
    if processors.is_empty() || random.one_in(3) {
        return Vec::new();
    }
    // An odd board may have processor 0, which is not to be missed.
    if processors[0] == 0 && random.one_in(3) {
        return vec![0];
    }
    let mut tries = (0..3).map(|_| clusters.around(board, random.pick(&processors)));
    tries.find(|focus| focus.len() > 1).unwrap_or_default()
}

/// What goes into the making of one message.
pub(super) struct Drafter<'a> {
    pub(super) random: &'a mut Random,
    pub(super) scene: Scene<'a>,
    goal: Goal,
    /// the hosts and the processors of the board
    senders: Vec<u16>,
    processors: Vec<u8>,
}

impl Drafter<'_> {
    /// Whether to make the fault of this outcome: always for the goal, sometimes for a later test.
    pub(super) fn faulty(&mut self, outcome: Outcome) -> bool {
        outcome == self.goal.outcome || (self.goal.outcome < outcome && self.random.one_in(5))
    }

    fn attempt(&mut self) -> Draft {
        let processor = self.goal.processor.unwrap_or_else(|| self.any_processor());
        // Of a processor that is not on the board any row will do.
        let row = self.scene.setup.board.row_of(processor).unwrap_or(0);
        let (channel, host) = self.hosts(row);
        let mut message = self.header(host);
        let mut status = None;
        if let Subject::Type(kind) = self.goal.subject {
            message.push(self.named(processor));
            status = self.add_fields(&mut message, kind, row);
            message.resize(kind.size(), 0);
        }
        self.shape_length(&mut message);
        Draft { channel, message, status }
    }

    /// The channel's host and the header's.
    fn hosts(&mut self, row: usize) -> (u8, u8) {
        let sender = self.sender(row);
        if !self.faulty(Outcome::N2) {
            return (sender, sender);
        }
        let other = self.random.pick_or(&[0, 3, 7, 10, 12, 14, 131], Random::u8);
        let board = self.any_sender();
        let pairs = [(other, other), (other, sender), (sender, other), (0, 0), (sender, board)];
        self.random.pick(&pairs)
    }

    /// A board host, often one with a part in this row.
    fn sender(&mut self, row: usize) -> u8 {
        let any = self.any_sender();
        let board = self.scene.setup.board;
        let controller = Record::load(board, self.scene.records, row).controller as u8;
        let named = self.named_host(row);
        let beside = self.controller_in_focus().unwrap_or(controller);
        let wanted = match self.goal.role {
            Some(_) => self.random.pick(&[controller, named, named, any]),
            None => self.random.pick(&[controller, controller, beside, named, any]),
        };
        if board.can_send(u16::from(wanted)) {
            wanted
        } else {
            any
        }
    }

    /// A host that a word of the row names, or seems to by its low or its high byte.
    fn named_host(&mut self, row: usize) -> u8 {
        let [low, high] = self.random.pick(row_words(self.scene.setup.access, row)).to_le_bytes();
        if high != 0 && self.random.one_in(3) {
            high
        } else {
            low
        }
    }

    /// The controller of some processor in focus.
    fn controller_in_focus(&mut self) -> Option<u8> {
        if self.scene.focus.is_empty() {
            return None;
        }
        let board = self.scene.setup.board;
        let row = board.row_of(self.random.pick(self.scene.focus))?;
        Some(Record::load(board, self.scene.records, row).controller as u8)
    }

    /// A host that may send, or any number on a board without one.
    pub(super) fn any_sender(&mut self) -> u8 {
        match self.senders[..] {
            [] => self.random.u8(),
            _ => self.random.pick(&self.senders) as u8,
        }
    }

    /// A processor of the board, mostly one of those in focus, or any number on a board without
    /// one.
    fn any_processor(&mut self) -> u8 {
        let focus = self.scene.focus;
        if self.processors.is_empty() {
            self.random.u8()
        } else if focus.is_empty() || self.random.one_in(5) {
            self.random.pick(&self.processors)
        } else {
            self.random.pick(focus)
        }
    }

    fn header(&mut self, host: u8) -> Vec<u8> {
        let number = match self.goal.subject {
            Subject::Type(kind) => kind.number(),
            _ => self.other_type(),
        };
        let mut message = number.to_le_bytes().to_vec();
        let extra = if self.random.one_in(2) { self.random.u32() & !2 } else { 0 };
        let flags = extra | if self.goal.asked { 2 } else { 0 };
        message.extend([host, self.random.u8()]);
        message.extend(flags.to_le_bytes());
        message
    }

    /// A type that is not in the table, often near one that is.
    fn other_type(&mut self) -> u16 {
        let near = [0xC002, 0xC004, 0xC006, 0xC102, 0xC121, 0xC402, 0x00C0, 0xC200, 0x4000, 0xC500];
        let number = self.random.pick_or(&near, Random::u16);
        if Kind::of(number).is_some() {
            near[0]
        } else {
            number
        }
    }

    /// The processor to name: the one that is meant, or one that the board often lacks.
    fn named(&mut self, processor: u8) -> u8 {
        if self.faulty(Outcome::N6) {
            self.random.pick_or(&[0, 1, 2, 3, 31, 32, 33, 34, 129, 255], Random::u8)
        } else {
            processor
        }
    }

    /// Cuts or pads the message: behind its structure come zeros or stale bytes.
    fn shape_length(&mut self, message: &mut Vec<u8>) {
        let size = message.len();
        let longer = self.random.between(size, LONGEST_MESSAGE);
        let length = self.random.pick(&[size, LONGEST_MESSAGE, longer]);
        self.pad(message, length);
        if self.faulty(Outcome::N4) && size > HEADER_BYTES {
            message.truncate(self.random.between(HEADER_BYTES, size - 1));
        }
        if self.goal.subject == Subject::Short {
            message.truncate(self.random.below(HEADER_BYTES));
        } else if self.faulty(Outcome::R2) {
            let length = self.random.between(LONGEST_MESSAGE + 1, LONGEST_RECORDED);
            let length = self.random.pick(&[LONGEST_MESSAGE + 1, length, LONGEST_RECORDED]);
            self.pad(message, length);
        }
    }

    fn pad(&mut self, message: &mut Vec<u8>, length: usize) {
        let stale = self.random.one_in(2);
        while message.len() < length {
            message.push(if stale { self.random.u8() } else { 0 });
        }
    }
}

#[cfg(test)]
mod tests {
    use super::*;
    use crate::access::{accept_list, ACCESS_WORDS};
    use crate::harness::generate::goals::goals;
    use crate::harness::generate::lists::good_list;
    use crate::record::RECORD_WORDS;

    #[test]
    fn drafts_reach_each_goal_that_the_state_allows() {
        let mut random = Random::new(6, 0);
        let (board, mut access) = (Board::first(), [0; ACCESS_WORDS]);
        accept_list(&board, &mut access, &good_list(&mut random, &board)).unwrap();
        let mut records = [0; RECORD_WORDS];
        records[0] = 3;
        let setup = Setup { board: &board, access: &access };
        let scene = Scene { setup, records: &records, status: &[], focus: &[], most_words: 255 };
        let reachable = |goal: &Goal| !matches!(goal.outcome, Outcome::R1 | Outcome::N1);
        for goal in goals().into_iter().filter(reachable) {
            let reached = (0..20).any(|_| draft(&mut random, &scene, goal).reaches(&scene, goal));
            assert!(reached, "{goal:?}");
        }
    }
}
