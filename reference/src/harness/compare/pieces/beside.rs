//! The model and another replay side by side: each piece is fed to both, and behind every call all
//! is compared that the papers say of it.

use crate::harness::compare::calls::same;
use crate::harness::compare::guards::{has_guards, inside, GUARD};
use crate::harness::compare::pieces::memories::Memories;
use crate::harness::compare::pieces::output::Output;
use crate::harness::compare::pieces::Replays;
use crate::harness::coverage::PieceCoverage;
use crate::harness::situations::PieceWatch;
use crate::session::State;
use crate::stream::lent::Content;
use crate::stream::{Status, Stream, Turn};

/// What guards a piece.
const PIECE_GUARD: u8 = 0xC3;

/// Of calls that carry nothing out, one in this many has all memories compared.
const CHECK_EVERY: u64 = 64;

/// Both, and what they have printed.
pub struct Beside<'a, R> {
    replays: &'a R,
    coverage: &'a mut PieceCoverage,
    /// sees the situations; none where they are not counted
    watch: Option<PieceWatch>,
    model: Stream,
    memories: Memories,
    output: Output,
    /// the piece that is being fed, between guards
    piece: Vec<u8>,
    /// all that was printed
    pub lines: Vec<u8>,
}

impl<'a, R: Replays> Beside<'a, R> {
    /// Starts both, the other one over memories with this content.
    pub fn start(
        replays: &'a R,
        content: &Content,
        watch: Option<PieceWatch>,
        coverage: &'a mut PieceCoverage,
    ) -> Result<Beside<'a, R>, String> {
        let mut memories = Memories::new(content);
        replays.start(memories.lend());
        coverage.calls += 1;
        let model = Stream::default();
        memories.check(&model)?;
        same("stream at the start", &&[0, 0, 0][..], &memories.stream())?;
        let (output, piece, lines) = (Output::default(), Vec::new(), Vec::new());
        Ok(Beside { replays, coverage, watch, model, memories, output, piece, lines })
    }

    /// Feeds a piece to both until it is used up, each time with an output of the next length.
    pub fn feed(&mut self, piece: &[u8], mut room: impl FnMut() -> usize) -> Result<(), String> {
        self.lay_out(piece);
        let (mut modelled, mut taken) = (0, 0);
        loop {
            let room = room();
            let turn = self.feed_model(&piece[modelled..], room);
            modelled += turn.taken;
            taken += self.feed_other(taken, room, &turn)?;
            self.check_waiting(&piece[modelled..], piece.len() - taken)?;
            if turn.status != Status::Full {
                return self.check_piece(piece);
            }
        }
    }

    /// Puts the piece between guards.
    fn lay_out(&mut self, piece: &[u8]) {
        self.coverage.pieces += 1;
        self.piece.clear();
        self.piece.resize(GUARD, PIECE_GUARD);
        self.piece.extend(piece);
        self.piece.resize(piece.len() + 2 * GUARD, PIECE_GUARD);
        if let Some(watch) = &mut self.watch {
            watch.next_piece(piece);
        }
    }

    fn feed_model(&mut self, rest: &[u8], room: usize) -> Turn {
        let Some(watch) = &mut self.watch else {
            return self.model.feed(rest, room);
        };
        let carry = self.model.carry.clone();
        let turn = self.model.feed(rest, room);
        let left = self.model.carry.len();
        self.coverage.count_feeding(&watch.feed((&carry, rest), room, &turn, left));
        turn
    }

    /// Feeds the piece from there on to the other; gives how many bytes it has taken.
    fn feed_other(&mut self, from: usize, room: usize, turn: &Turn) -> Result<usize, String> {
        let rest = &inside(&self.piece)[from..];
        let most = rest.len();
        let status = self.replays.feed(self.memories.lend(), rest, self.output.lend(room));
        self.check_call(status, room, turn)?;
        let [taken, _] = self.memories.progress();
        if taken > most || turn.status != Status::Full && taken < most {
            return Err(format!("{taken} bytes taken of {most}"));
        }
        Ok(taken)
    }

    /// Announces the end to both until it is taken, each time with an output of the next length.
    pub fn end(&mut self, mut room: impl FnMut() -> usize) -> Result<(), String> {
        loop {
            let room = room();
            let (held, carry) = (self.memories.held().len(), self.memories.carry().to_vec());
            let turn = self.model.end(room);
            if let Some(watch) = &mut self.watch {
                let carried = self.model.carry.len();
                self.coverage.count_ending(&watch.end(carried, room, &turn));
            }
            let status = self.replays.end(self.memories.lend(), self.output.lend(room));
            self.check_call(status, room, &turn)?;
            same("bytes taken by the end", &0, &self.memories.progress()[0])?;
            same("carry", &&carry[..], &self.memories.carry())?;
            if turn.status != Status::Full {
                return Ok(());
            }
            same("number of carried bytes", &held, &self.memories.held().len())?;
        }
    }

    /// Compares what a call gave, has printed and has left.
    fn check_call(&mut self, status: u32, room: usize, turn: &Turn) -> Result<(), String> {
        self.coverage.calls += 1;
        same("status", &(turn.status as u32), &status)?;
        let [_, printed] = self.memories.progress();
        self.output.check(room, printed, &turn.lines)?;
        self.lines.extend(&turn.lines);
        // Between two events the memories are looked at now and then, to save time.
        let is_due = self.coverage.calls.is_multiple_of(CHECK_EVERY);
        if turn.events.is_empty() && turn.status == Status::Fed && !is_due {
            return Ok(());
        }
        self.memories.check(&self.model)
    }

    /// Whether the carried bytes and the rest of the piece, of this length, are what waits in the
    /// model. They may be cut elsewhere: a field that waits for room may be in the carry already.
    fn check_waiting(&self, modelled: &[u8], rest: usize) -> Result<(), String> {
        if self.model.over {
            return Ok(());
        }
        let (held, carry) = (self.memories.held(), &self.model.carry[..]);
        same("number of bytes that wait", &(carry.len() + modelled.len()), &(held.len() + rest))?;
        let Some((first, others)) = held.split_at_checked(carry.len()) else {
            return Err(format!("{} bytes carried in place of {}", held.len(), carry.len()));
        };
        same("carried bytes", &carry, &first)?;
        same("carried bytes of the piece", &&modelled[..others.len()], &others)
    }

    /// Whether the piece and what stands around it is unchanged.
    fn check_piece(&self, piece: &[u8]) -> Result<(), String> {
        if inside(&self.piece) != piece || !has_guards(&self.piece, PIECE_GUARD) {
            return Err("the piece was written to".to_string());
        }
        Ok(())
    }

    /// Whether all memories hold what the recording leaves, and nothing was written beside them.
    pub fn check_end(&self, state: &State) -> Result<(), String> {
        self.memories.check_manager(state)?;
        self.memories.check_guards()?;
        self.output.check_all()
    }
}
