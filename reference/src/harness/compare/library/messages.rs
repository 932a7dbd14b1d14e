//! Compares message calls over memories of any content, with answer buffers of any length.

use crate::harness::compare::calls::same;
use crate::harness::compare::guards::{between_guards, guarded, lent_part};
use crate::harness::compare::library::hex;
use crate::harness::compare::library::lent::Lent;
use crate::harness::coverage::Coverage;
use crate::harness::generate::drafts::{any_focus, draft, Scene, LONGEST_RECORDED};
use crate::harness::generate::goals::{goals, pick_goal, Goal};
use crate::harness::generate::memories::{any_access, any_board, any_records, LentBoard};
use crate::harness::generate::random::Random;
use crate::harness::situations::{Met, Watch};
use crate::harness::Run;
use crate::manager::{handle, Call, Setup};
use crate::message::ANSWER_BYTES;
use crate::outcome::{Outcome, Report};
use crate::record::RecordMemory;
use crate::static_library::{self, RawReport};

const MOST_WORDS: usize = 300;
const MOST_ROOM: usize = 64;

/// Calls made on the same memories before new ones are drawn.
const CALLS_PER_START: u64 = 10;

/// Compares this many message calls.
pub fn compare_messages(seed: u64, calls: u64, coverage: &mut Coverage) -> Result<(), String> {
    let goals = goals();
    for start in 0..calls.div_ceil(CALLS_PER_START) {
        let mut random = Random::new(seed ^ 0x4D65_7373, start);
        let LentBoard { board, clusters } = any_board(&mut random);
        let access = any_access(&mut random, &board);
        let mut records = any_records(&mut random, &board);
        let setup = Setup { board: &board, access: &access };
        let focus = any_focus(&mut random, &board, &clusters);
        let mut watch = Watch::new(&clusters);
        let mut look = None;
        for number in 0..CALLS_PER_START {
            let goal = look.unwrap_or_else(|| pick_goal(&mut random, &goals, &access, Run::Calls));
            let trial = Trial::new(&mut random, goal, (setup, &focus), &records);
            let before = records;
            let report = trial.compare(setup, &mut records).map_err(|text| {
                let place = start * CALLS_PER_START + number;
                let told = trial.describe(setup, &before);
                format!("message call {place}: {text}\n{told}")
            })?;
            let seen = watch.see(setup, &before, &trial.call(), report);
            let met = Met { setup, call: trial.call(), report };
            coverage.count_message(&met, seen.as_ref());
            let place = (&board, &clusters);
            look = Goal::look_beside(&mut random, place, &trial.message, report.outcome);
        }
    }
    Ok(())
}

/// One message call that both are to make.
struct Trial {
    channel: u8,
    message: Vec<u8>,
    status: Vec<u32>,
    buffer: Vec<u8>,
}

impl Trial {
    /// Draws a message toward the goal.
    fn new(
        random: &mut Random,
        goal: Goal,
        (setup, focus): (Setup, &[u8]),
        records: &RecordMemory,
    ) -> Trial {
        let count = random.pick_or(&[0], |random| random.between(0, MOST_WORDS));
        let standing = random.words(count);
        let scene = Scene { setup, records, status: &standing, focus, most_words: MOST_WORDS };
        let mut draft = draft(random, &scene, goal);
        if random.one_in(20) {
            draft.message = random.noise(LONGEST_RECORDED);
        }
        let room = any_room(random, goal.outcome);
        Trial {
            channel: draft.channel,
            message: draft.message,
            status: draft.status.unwrap_or(standing),
            buffer: random.bytes(room),
        }
    }

    fn call(&self) -> Call<'_> {
        Call { channel: self.channel, message: &self.message, status: &self.status }
    }

    /// Makes the call both ways and compares all that can be seen afterwards. The records are then
    /// what both left.
    fn compare(&self, setup: Setup, records: &mut RecordMemory) -> Result<Report, String> {
        let mut message = guarded(&self.message, 0xC3);
        let call = Call { message: between_guards(&mut message), ..self.call() };
        let Setup { board, access } = setup;
        let mut lent = Lent::new(board, access);
        let mut lent_records = guarded(records, 0x5AA5_5AA5);
        let mut lent_answer = guarded(&self.buffer, 0x5A);
        let (lent_board, lent_access) = lent.parts();
        let given = static_library::message(
            lent_board,
            lent_access,
            lent_part(&mut lent_records),
            &call,
            between_guards(&mut lent_answer),
        );
        let mut answer = self.buffer.clone();
        let report = handle(setup, records, &call, &mut answer);
        same("report", &raw(&report), &given)?;
        lent.compare(board, access)?;
        same("record memory", &guarded(records, 0x5AA5_5AA5), &lent_records)?;
        same("answer buffer", &guarded(&answer, 0x5A), &lent_answer)?;
        Ok(report)
    }

    fn describe(&self, setup: Setup, records: &RecordMemory) -> String {
        let Trial { channel, message, status, buffer } = self;
        let (message, room) = (hex(message), buffer.len());
        let (board, access) = (hex(&setup.board.0), setup.access);
        format!(
            " board {board}\n access {access:?}\n records {records:x?}\n channel {channel}\n \
             message {message}\n status {status:x?}\n answer room {room}"
        )
    }
}

/// A length of the answer buffer: too short for R1, else long enough.
fn any_room(random: &mut Random, outcome: Outcome) -> usize {
    if outcome == Outcome::R1 {
        random.pick_or(&[0, ANSWER_BYTES - 1], |random| random.below(ANSWER_BYTES))
    } else {
        random.pick_or(&[ANSWER_BYTES], |random| random.between(ANSWER_BYTES, MOST_ROOM))
    }
}

/// The report by the library's numbers.
fn raw(report: &Report) -> RawReport {
    RawReport {
        outcome: report.outcome.number(),
        checks: report.checks,
        microseconds: report.microseconds,
        written: report.written as u32,
        role: report.role.number(),
    }
}
