//! A recording that is delivered in pieces of any size: what is carried from one piece to the next,
//! what is printed into an output of some length, and how the recording ends.

pub mod lent;

use std::mem;

use crate::bytes::u16_at;
use crate::session::{is_good_length, write_line, Event, State, LONGEST_STATUS, TAGS};

/// Bytes of a field before its body: tag and length.
pub const HEADER_BYTES: usize = 3;

/// Bytes of the carry, enough for the longest field with its tag and length.
pub const CARRY_BYTES: usize = HEADER_BYTES + LONGEST_STATUS;

/// Output that has to be left for a field to be carried out. Any line fits in it.
pub const LINE_BYTES: usize = 96;

/// What stands at the front of the bytes that have come so far.
#[derive(Clone, Copy, Debug, PartialEq, Eq)]
pub enum Front<'a> {
    /// no byte at all
    Nothing,
    /// a field that is not whole yet
    Open,
    /// a bad tag, or a bad length of which both bytes are there
    Bad,
    /// a field with all of its body
    Whole { tag: u8, body: &'a [u8] },
}

impl Front<'_> {
    /// Judges the tag as soon as it is there, and the length as soon as both its bytes are.
    pub fn of(bytes: &[u8]) -> Front<'_> {
        let Some(&tag) = bytes.first() else {
            return Front::Nothing;
        };
        if !TAGS.contains(&tag) {
            return Front::Bad;
        }
        if bytes.len() < HEADER_BYTES {
            return Front::Open;
        }
        let length = usize::from(u16_at(bytes, 1));
        if !is_good_length(tag, length) {
            return Front::Bad;
        }
        let body = bytes[HEADER_BYTES..].get(..length);
        body.map_or(Front::Open, |body| Front::Whole { tag, body })
    }
}

/// How a call ended. The numbers are those of the static library.
#[derive(Clone, Copy, Debug, Default, PartialEq, Eq)]
pub enum Status {
    /// the piece is used up
    #[default]
    Fed = 0,
    /// a whole or bad record, or the end, waits for an output with room for a line
    Full = 1,
    /// the recording is over
    Over = 2,
}

/// What a call came to.
#[derive(Clone, Debug, Default, PartialEq, Eq)]
pub struct Turn {
    pub status: Status,
    /// bytes of the piece that were taken
    pub taken: usize,
    /// what the fields came to, one behind the other
    pub events: Vec<Event>,
    /// what was printed
    pub lines: Vec<u8>,
}

impl Turn {
    fn add(&mut self, event: Event) {
        write_line(&mut self.lines, &event).expect("a vector takes all bytes");
        self.events.push(event);
    }
}

/// A recording of which some pieces have come.
#[derive(Clone, Debug, Default, PartialEq, Eq)]
pub struct Stream {
    /// what the fields have left that were carried out
    pub state: State,
    /// the bytes of a field that is not whole yet; where a call had no room, what waits of it
    pub carry: Vec<u8>,
    /// whether there was a bad record or the end was announced
    pub over: bool,
}

impl Stream {
    /// Takes a piece and carries out what is whole with it, as long as there is room for a line.
    pub fn feed(&mut self, piece: &[u8], room: usize) -> Turn {
        if self.over {
            return Turn { status: Status::Over, taken: piece.len(), ..Turn::default() };
        }
        let held = self.carry.len();
        let mut bytes = mem::take(&mut self.carry);
        bytes.extend(piece);
        let (mut turn, used) = self.take(&bytes, room);
        // What waits for room stays where it is, in the carry or in the piece.
        let end = if turn.status == Status::Full { used.max(held) } else { bytes.len() };
        turn.taken = end - held;
        bytes.truncate(end);
        bytes.drain(..used);
        self.carry = bytes;
        turn
    }

    /// Carries out fields from the front on; gives how many bytes they have. A bad record uses up
    /// everything.
    fn take(&mut self, bytes: &[u8], room: usize) -> (Turn, usize) {
        let (mut turn, mut used) = (Turn::default(), 0);
        loop {
            match Front::of(&bytes[used..]) {
                Front::Nothing | Front::Open => return (turn, used),
                _ if room < turn.lines.len() + LINE_BYTES => {
                    turn.status = Status::Full;
                    return (turn, used);
                }
                Front::Bad => {
                    self.over = true;
                    turn.status = Status::Over;
                    turn.add(Event::Bad);
                    return (turn, bytes.len());
                }
                Front::Whole { tag, body } => {
                    used += HEADER_BYTES + body.len();
                    turn.add(self.state.carry_out(tag, body));
                }
            }
        }
    }

    /// Takes it that nothing more comes. A field that is not whole is then a cut record.
    pub fn end(&mut self, room: usize) -> Turn {
        let mut turn = Turn { status: Status::Over, ..Turn::default() };
        if self.over {
            return turn;
        }
        if room < LINE_BYTES {
            turn.status = Status::Full;
            return turn;
        }
        self.over = true;
        if Front::of(&self.carry) == Front::Open {
            turn.add(Event::Cut);
        }
        turn
    }
}

#[cfg(test)]
mod tests;
