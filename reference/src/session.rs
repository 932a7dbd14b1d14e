//! Session recordings: tagged fields in, lines out. Memory does not grow with the recording.

use std::io::{self, ErrorKind, Read, Write};

use crate::access::{accept_list, AccessMemory, ListFault, ACCESS_WORDS};
use crate::block::{accept_block, Abi, BlockFault};
use crate::board::Board;
use crate::bytes::{u16_at, u32_at};
use crate::description::{take_board, BoardFault};
use crate::manager::{handle, Call, Setup};
use crate::message::ANSWER_BYTES;
use crate::outcome::Report;
use crate::record::{RecordMemory, RECORD_WORDS};

/// Tag of a field that holds an access list.
pub const TAG_LIST: u8 = 1;

/// Tag of a field that holds status words, which stand until the next such field.
pub const TAG_STATUS: u8 = 2;

/// Tag of a field that holds the channel host and a message.
pub const TAG_MESSAGE: u8 = 3;

/// Tag of a field that holds a block.
pub const TAG_BLOCK: u8 = 4;

/// Tag of a field that holds a board description.
pub const TAG_BOARD: u8 = 6;

/// Every good tag.
pub const TAGS: [u8; 5] = [TAG_LIST, TAG_STATUS, TAG_MESSAGE, TAG_BLOCK, TAG_BOARD];

/// The ABI bytes that a recorded block has to have.
pub const RECORDED_ABI: Abi = [0, 1];

/// The longest description that a recording can hold: 64 hosts and 32 processors.
pub const LONGEST_BOARD: usize = 512;

/// The longest block that a recording can hold.
pub const LONGEST_BLOCK: usize = 512;

/// The longest list that a recording can hold.
pub const LONGEST_LIST: usize = 512;

/// The longest run of status words that a recording can hold, in bytes.
pub const LONGEST_STATUS: usize = 1020;

const LONGEST_MESSAGE_FIELD: usize = 512;

/// What one field of a recording came to.
#[derive(Clone, Copy, Debug, PartialEq, Eq)]
pub enum Event {
    List(Result<(), ListFault>),
    Block(Result<(), BlockFault>),
    /// new status words stand; nothing is printed
    Status,
    Message(Report, [u8; ANSWER_BYTES]),
    Board(Result<(), BoardFault>),
    /// a bad tag or length; nothing follows
    Bad,
    /// a field cut off; nothing follows
    Cut,
}

/// What the fields of a recording have left so far.
#[derive(Clone, Debug, PartialEq, Eq)]
pub struct State {
    /// what the descriptions have left
    pub board: Board,
    /// what the lists and blocks have left
    pub access: AccessMemory,
    /// what the messages have left
    pub records: RecordMemory,
    /// the status words that stand
    pub status: Vec<u32>,
}

impl Default for State {
    /// The first board, no list, all processors free, all words zero and no status words.
    fn default() -> State {
        State {
            board: Board::first(),
            access: [0; ACCESS_WORDS],
            records: [0; RECORD_WORDS],
            status: Vec::new(),
        }
    }
}

impl State {
    /// What the next message is judged by.
    pub fn setup(&self) -> Setup<'_> {
        Setup { board: &self.board, access: &self.access }
    }

    /// Carries out a whole field with a good tag and length.
    pub fn carry_out(&mut self, tag: u8, body: &[u8]) -> Event {
        match tag {
            TAG_LIST => Event::List(accept_list(&self.board, &mut self.access, body)),
            TAG_BLOCK => {
                Event::Block(accept_block(&self.board, &mut self.access, RECORDED_ABI, body))
            }
            TAG_BOARD => Event::Board(take_board(&mut self.board, &self.access, body)),
            TAG_STATUS => {
                self.status.clear();
                self.status.extend(body.chunks_exact(4).map(|word| u32_at(word, 0)));
                Event::Status
            }
            _ => self.send(body),
        }
    }

    fn send(&mut self, body: &[u8]) -> Event {
        let call = call_of(body, &self.status);
        let mut answer = [0; ANSWER_BYTES];
        let setup = Setup { board: &self.board, access: &self.access };
        let report = handle(setup, &mut self.records, &call, &mut answer);
        Event::Message(report, answer)
    }
}

/// A recording that is being replayed.
pub struct Session<R> {
    input: R,
    ended: bool,
    body: Vec<u8>,
    /// what the fields have left
    pub state: State,
}

impl<R: Read> Session<R> {
    /// Starts at the first field.
    pub fn new(input: R) -> Session<R> {
        Session { input, ended: false, body: Vec::new(), state: State::default() }
    }

    /// The body of the last field: for a message, the channel host and the message.
    pub fn body(&self) -> &[u8] {
        &self.body
    }

    /// Replays the next field; none once the recording is over.
    pub fn next_event(&mut self) -> io::Result<Option<Event>> {
        if self.ended {
            return Ok(None);
        }
        let event = self.replay_field()?;
        self.ended = matches!(event, None | Some(Event::Bad | Event::Cut));
        Ok(event)
    }

    /// Reads and judges tag, then length, then body, and carries out the field.
    fn replay_field(&mut self) -> io::Result<Option<Event>> {
        let mut tag = [0];
        if read_up_to(&mut self.input, &mut tag)? == 0 {
            return Ok(None);
        }
        if !TAGS.contains(&tag[0]) {
            return Ok(Some(Event::Bad));
        }
        let mut length = [0; 2];
        if read_up_to(&mut self.input, &mut length)? < length.len() {
            return Ok(Some(Event::Cut));
        }
        let length = usize::from(u16_at(&length, 0));
        if !is_good_length(tag[0], length) {
            return Ok(Some(Event::Bad));
        }
        self.body.resize(length, 0);
        if read_up_to(&mut self.input, &mut self.body)? < length {
            return Ok(Some(Event::Cut));
        }
        Ok(Some(self.state.carry_out(tag[0], &self.body)))
    }
}

/// The call that a message field stands for: its channel host, and the message behind that.
pub fn call_of<'a>(body: &'a [u8], status: &'a [u32]) -> Call<'a> {
    Call { channel: body[0], message: &body[1..], status }
}

/// Whether a field with this good tag may have this length.
pub fn is_good_length(tag: u8, length: usize) -> bool {
    match tag {
        TAG_LIST => length <= LONGEST_LIST,
        TAG_BLOCK => length <= LONGEST_BLOCK,
        TAG_BOARD => length <= LONGEST_BOARD,
        TAG_STATUS => length <= LONGEST_STATUS && length.is_multiple_of(4),
        _ => (1..=LONGEST_MESSAGE_FIELD).contains(&length),
    }
}

/// Fills the buffer as far as the input goes; gives the bytes read.
fn read_up_to(input: &mut impl Read, buffer: &mut [u8]) -> io::Result<usize> {
    let mut filled = 0;
    while filled < buffer.len() {
        match input.read(&mut buffer[filled..]) {
            Ok(0) => break,
            Ok(count) => filled += count,
            Err(error) if error.kind() == ErrorKind::Interrupted => {}
            Err(error) => return Err(error),
        }
    }
    Ok(filled)
}

/// Writes the line of an event, if it has one.
pub fn write_line(out: &mut impl Write, event: &Event) -> io::Result<()> {
    match event {
        Event::List(Ok(())) => writeln!(out, "list OK"),
        Event::List(Err(fault)) => writeln!(out, "list {fault:?}"),
        Event::Block(Ok(())) => writeln!(out, "block OK"),
        Event::Block(Err(fault)) => writeln!(out, "block {fault}"),
        Event::Status => Ok(()),
        Event::Message(report, answer) => write_message_line(out, report, answer),
        Event::Board(Ok(())) => writeln!(out, "board OK"),
        Event::Board(Err(fault)) => writeln!(out, "board {fault:?}"),
        Event::Bad => writeln!(out, "bad record"),
        Event::Cut => writeln!(out, "cut record"),
    }
}

/// Outcome, checks, microseconds, and the answer in hexadecimal or a dash. The role is not printed.
fn write_message_line(out: &mut impl Write, report: &Report, answer: &[u8]) -> io::Result<()> {
    let Report { outcome, role: _, checks, microseconds, written } = report;
    write!(out, "{outcome:?} {checks} {microseconds} ")?;
    if *written == 0 {
        write!(out, "-")?;
    }
    for byte in &answer[..*written] {
        write!(out, "{byte:02x}")?;
    }
    writeln!(out)
}

/// Replays a whole recording and writes its lines.
pub fn replay(input: impl Read, mut out: impl Write) -> io::Result<()> {
    let mut session = Session::new(input);
    while let Some(event) = session.next_event()? {
        write_line(&mut out, &event)?;
    }
    out.flush()
}

/// The lines of a whole recording, for tests.
#[cfg(test)]
pub fn lines_of(recording: &[u8]) -> String {
    let mut lines = Vec::new();
    replay(recording, &mut lines).expect("a vector takes all bytes");
    String::from_utf8(lines).expect("lines are text")
}

#[cfg(test)]
mod tests;
