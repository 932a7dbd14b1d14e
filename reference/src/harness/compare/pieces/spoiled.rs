//! A replay over the model, right and spoiled in many ways: each of these has to be noticed.

use super::*;
use crate::harness::edges::recordings::edge_recordings;
use crate::harness::edges::worked::WORKED;
use crate::harness::generate::recordings::recording;
use crate::session::{is_good_length, Event};
use crate::stream::{Status, Stream, Turn};

/// A call that the model has made, which may still be spoiled.
struct Made<'a> {
    /// the piece; none where the end was announced
    piece: Option<&'a [u8]>,
    room: usize,
    before: Stream,
    after: Stream,
    turn: Turn,
}

impl Made<'_> {
    fn new(piece: Option<&[u8]>, room: usize, before: Stream) -> Made<'_> {
        let mut after = before.clone();
        let turn = match piece {
            Some(piece) => after.feed(piece, room),
            None => after.end(room),
        };
        Made { piece, room, before, after, turn }
    }

    /// Feeds other bytes in place of the piece, or with another room.
    fn feed_instead(&mut self, piece: &[u8], room: usize) {
        self.after = self.before.clone();
        self.turn = self.after.feed(piece, room);
        self.turn.taken = self.turn.taken.min(self.piece.unwrap_or_default().len());
    }

    fn is_fed(&self) -> bool {
        self.piece.is_some() && self.turn.status == Status::Fed
    }

    /// Whether a record waits for room.
    fn waits(&self) -> bool {
        self.piece.is_some() && self.turn.status == Status::Full
    }

    fn print(&mut self, line: &str) {
        if self.turn.lines.len() + line.len() <= self.room {
            self.turn.lines.extend(line.as_bytes());
        }
    }

    /// Puts it all into what was lent.
    fn store(self, lent: Lent, out: &mut [u8]) -> u32 {
        let Stream { state, carry, over } = self.after;
        (*lent.board, *lent.access, *lent.records) = (state.board.0, state.access, state.records);
        lent.words[..state.status.len()].copy_from_slice(&state.status);
        let held = carry.len().min(lent.carry.len());
        lent.carry[..held].copy_from_slice(&carry[..held]);
        *lent.stream = [held as u32, state.status.len() as u32, u32::from(over)];
        let lines = &self.turn.lines;
        out[..lines.len()].copy_from_slice(lines);
        *lent.progress = [self.turn.taken as u64, lines.len() as u64];
        self.turn.status as u32
    }
}

/// The model over lent memories, with a fault in what each call comes to.
struct Spoiled(fn(&mut Made));

impl Replays for Spoiled {
    fn start(&self, lent: Lent) {
        Made::new(Some(&[]), 0, Stream::default()).store(lent, &mut []);
    }

    fn feed(&self, lent: Lent, piece: &[u8], out: &mut [u8]) -> u32 {
        let mut made = Made::new(Some(piece), out.len(), lent.read());
        self.0(&mut made);
        made.store(lent, out)
    }

    fn end(&self, lent: Lent, out: &mut [u8]) -> u32 {
        let mut made = Made::new(None, out.len(), lent.read());
        self.0(&mut made);
        made.store(lent, out)
    }
}

/// Feeds the worked sessions, some recordings and pieces for memories of any content.
fn compare(spoil: fn(&mut Made), coverage: &mut PieceCoverage) -> Result<(), String> {
    let replays = Spoiled(spoil);
    compare_worked(&replays, 51, &WORKED, coverage)?;
    let mut edges = edge_recordings();
    edges.retain(|recording| recording.len() < 3000);
    let random = (0..160).map(|number| recording(51, number));
    for (number, recording) in edges.into_iter().chain(random).enumerate() {
        compare_recording(&replays, (51, number as u64), &recording, coverage)?;
    }
    compare_contents(&replays, 51, 2000, coverage)
}

#[test]
fn model_passes_and_leaves_no_gap() {
    let mut coverage = PieceCoverage::default();
    assert_eq!(compare(|_| {}, &mut coverage), Ok(()));
    assert_eq!(coverage.gaps(), [""; 0]);
}

/// A fault: its name, what is told of it, and how a call is spoiled.
type Fault = (&'static str, &'static str, fn(&mut Made));

/// Faults in what is carried from one piece to the next.
const CARRIED: [Fault; 8] = [
    ("last byte lost", "number of bytes that wait differs", |made| {
        if made.is_fed() {
            made.after.carry.pop();
        }
    }),
    ("last of 1022 bytes lost", "number of bytes that wait differs", |made| {
        if made.is_fed() && made.after.carry.len() == 1022 {
            made.after.carry.pop();
        }
    }),
    ("first byte of a piece twice", "status differs", |made| {
        let piece = made.piece.unwrap_or_default().to_vec();
        if !made.before.over && !made.before.carry.is_empty() && !piece.is_empty() {
            made.feed_instead(&[&piece[..1], &piece].concat(), made.room);
        }
    }),
    ("byte of a waiting record twice", "number of bytes that wait differs", |made| {
        made.turn.taken -= usize::from(made.waits() && made.turn.taken > 0);
    }),
    ("carry forgotten at an empty piece", "number of bytes that wait differs", |made| {
        if made.piece.is_some_and(<[u8]>::is_empty) {
            made.after.carry.clear();
        }
    }),
    ("status words forgotten at a piece's end", "status words differs", |made| {
        if made.is_fed() {
            made.after.state.status.clear();
        }
    }),
    ("length judged by its first byte", "status differs", |made| {
        let [tag, low] = made.after.carry[..] else { return };
        if made.is_fed() && !is_good_length(tag, usize::from(low)) {
            made.after.over = true;
            made.turn.status = Status::Over;
            made.print("bad record\n");
        }
    }),
    ("cut record between pieces", "what is printed differs", |made| {
        if made.is_fed() && !made.after.carry.is_empty() {
            made.print("cut record\n");
        }
    }),
];

/// Faults in what is printed, in how much room it needs and in how a recording ends.
const PRINTED: [Fault; 10] = [
    ("record carried out with 95 bytes left", "what is printed differs", |made| {
        if let (Some(piece), false) = (made.piece, made.before.over) {
            made.feed_instead(piece, made.room + 1);
        }
    }),
    ("status words carried out with no room", "status words differs", |made| {
        let mut other = made.before.clone();
        let events = other.feed(made.piece.unwrap_or_default(), LINE_BYTES).events;
        if made.waits() && made.turn.events.is_empty() && events == [Event::Status] {
            made.after = other;
        }
    }),
    ("line over the one before", "what is printed differs", |made| {
        let mut lines = made.turn.lines.split_inclusive(|&byte| byte == b'\n');
        made.turn.lines = lines.next_back().unwrap_or_default().to_vec();
    }),
    ("waiting record carried out as well", "record memory differs", |made| {
        if made.waits() {
            let mut other = made.before.clone();
            other.feed(made.piece.unwrap_or_default(), usize::MAX);
            made.after.state = other.state;
        }
    }),
    ("bad record again with the next piece", "what is printed differs", |made| {
        if made.before.over && made.piece.is_some() {
            made.print("bad record\n");
        }
    }),
    ("bad record again with the end", "what is printed differs", |made| {
        if made.before.over && made.piece.is_none() {
            made.print("bad record\n");
        }
    }),
    ("pieces taken behind the end", "status differs", |made| {
        made.before.over = false;
        if let Some(piece) = made.piece {
            made.feed_instead(piece, made.room);
        }
    }),
    ("no cut record", "what is printed differs", |made| {
        if made.piece.is_none() {
            made.turn.lines.clear();
        }
    }),
    ("end taken with no room", "word of the end differs", |made| {
        made.after.over |= made.piece.is_none();
    }),
    ("piece not taken when the recording is over", "0 bytes taken of", |made| {
        if made.before.over {
            made.turn.taken = 0;
        }
    }),
];

#[test]
fn each_fault_is_noticed() {
    for (name, told, spoil) in CARRIED.into_iter().chain(PRINTED) {
        let difference = compare(spoil, &mut PieceCoverage::default()).unwrap_err();
        assert!(difference.contains(told), "{name}: {difference}");
    }
}
