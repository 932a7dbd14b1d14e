//! Compares feed and end calls over memories of any content.

use crate::harness::compare::calls::same;
use crate::harness::compare::guards::{guarded, inside};
use crate::harness::compare::pieces::memories::Memories;
use crate::harness::compare::pieces::output::Output;
use crate::harness::compare::pieces::Replays;
use crate::harness::coverage::PieceCoverage;
use crate::harness::generate::cuts::{any_cuts, any_room, pieces};
use crate::harness::generate::goals::goals;
use crate::harness::generate::random::Random;
use crate::harness::generate::streams::any_replay;
use crate::stream::{Front, Status, Stream, Turn, HEADER_BYTES, LINE_BYTES};

/// What guards a piece.
const PIECE_GUARD: u8 = 0xC3;

/// The most calls on the same memories.
const MOST_CALLS: usize = 6;

/// Compares calls over this many sets of memories.
pub fn compare_contents(
    replays: &impl Replays,
    seed: u64,
    sets: u64,
    coverage: &mut PieceCoverage,
) -> Result<(), String> {
    let goals = goals();
    for number in 0..sets {
        let mut random = Random::new(seed ^ 0x436F_6E74, number);
        let (content, bytes) = any_replay(&mut random, &goals);
        let mut trial = Trial { memories: Memories::new(&content), output: Output::default() };
        let cuts = any_cuts(&mut random, &bytes);
        let say = |text| format!("memories {number}: {text}");
        for piece in pieces(&bytes, &cuts).take(MOST_CALLS) {
            trial.feed(replays, piece, any_room(&mut random)).map_err(say)?;
            coverage.calls += 1;
        }
        trial.end(replays, any_room(&mut random)).map_err(say)?;
        trial.feed(replays, &bytes, any_room(&mut random)).map_err(say)?;
        coverage.calls += 2;
        trial.check_guards().map_err(say)?;
    }
    Ok(())
}

/// What is called.
#[derive(Clone, Copy, PartialEq, Eq)]
enum Call {
    Feed,
    End,
}

/// Whether the papers say what a call over this stream comes to. They say nothing of a carry with
/// bytes behind a whole field, which no call leaves, nor of the end behind a bad record that waits.
fn is_said(call: Call, before: &Stream, room: usize) -> bool {
    if before.over || room < LINE_BYTES {
        return true;
    }
    match Front::of(&before.carry) {
        Front::Nothing | Front::Open => true,
        Front::Bad => call == Call::Feed,
        Front::Whole { body, .. } => before.carry.len() == HEADER_BYTES + body.len(),
    }
}

/// Memories and an output that some calls are lent.
struct Trial {
    memories: Memories,
    output: Output,
}

impl Trial {
    /// Feeds a piece to both, over what the memories hold.
    fn feed(&mut self, replays: &impl Replays, piece: &[u8], room: usize) -> Result<(), String> {
        let before = self.memories.lend().read();
        let lent_piece = guarded(piece, PIECE_GUARD);
        let status =
            replays.feed(self.memories.lend(), inside(&lent_piece), self.output.lend(room));
        same("piece", &guarded(piece, PIECE_GUARD), &lent_piece)?;
        self.check_bounds(status, piece.len(), room)?;
        if !is_said(Call::Feed, &before, room) {
            let [_, printed] = self.memories.progress();
            return self.output.forget(room, printed);
        }
        let mut model = before;
        let turn = model.feed(piece, room);
        self.check_turn(&model, &turn, status, room)?;
        self.check_waiting(&model, &turn, piece)
    }

    /// Announces the end to both, over what the memories hold. The carry is only read.
    fn end(&mut self, replays: &impl Replays, room: usize) -> Result<(), String> {
        let before = self.memories.lend().read();
        let carry = self.memories.carry().to_vec();
        let status = replays.end(self.memories.lend(), self.output.lend(room));
        same("carry", &&carry[..], &self.memories.carry())?;
        self.check_bounds(status, 0, room)?;
        if !is_said(Call::End, &before, room) {
            let [_, printed] = self.memories.progress();
            return self.output.forget(room, printed);
        }
        let mut model = before;
        let turn = model.end(room);
        self.check_turn(&model, &turn, status, room)
    }

    /// What holds of every call: its numbers are within their bounds and agree with each other.
    fn check_bounds(&self, status: u32, length: usize, room: usize) -> Result<(), String> {
        let [taken, printed] = self.memories.progress();
        let over = self.memories.stream()[2];
        let all_taken = taken == length || status == Status::Full as u32 && taken < length;
        let says_over = over == u32::from(status == Status::Over as u32);
        if status > Status::Over as u32 || !all_taken || printed > room || !says_over {
            return Err(format!(
                "status {status}, {taken} taken of {length}, {printed} printed of {room}, over {over}"
            ));
        }
        Ok(())
    }

    /// Compares what a call gave, has printed and has left.
    fn check_turn(
        &mut self,
        model: &Stream,
        turn: &Turn,
        status: u32,
        room: usize,
    ) -> Result<(), String> {
        same("status", &(turn.status as u32), &status)?;
        let [_, printed] = self.memories.progress();
        self.output.check(room, printed, &turn.lines)?;
        self.memories.check(model)
    }

    /// Whether the carried bytes and the rest of the piece are what waits in the model.
    fn check_waiting(&self, model: &Stream, turn: &Turn, piece: &[u8]) -> Result<(), String> {
        if model.over {
            return Ok(());
        }
        let [taken, _] = self.memories.progress();
        let expected = [&model.carry[..], &piece[turn.taken..]].concat();
        let given = [self.memories.held(), &piece[taken..]].concat();
        same("bytes that wait", &expected, &given)
    }

    fn check_guards(&self) -> Result<(), String> {
        self.memories.check_guards()?;
        self.output.check_all()
    }
}
