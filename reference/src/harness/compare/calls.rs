//! The calls that both implementations have, over memory of the caller, with the lines that tell of
//! them.

use std::fmt::Debug;

use crate::access::{accept_list, AccessMemory, ACCESS_WORDS};
use crate::block::{accept_block, Abi};
use crate::board::Board;
use crate::description::take_board;
use crate::manager::{handle, Call, Setup};
use crate::message::ANSWER_BYTES;
use crate::outcome::Report;
use crate::record::{Record, RecordMemory, Tallies, RECORD_WORDS};
use crate::session::{write_line, Event};

/// What a manager remembers: at the start the first board, and zeros.
#[derive(Clone, Debug, PartialEq, Eq)]
pub struct Memory {
    pub board: Board,
    pub access: AccessMemory,
    pub records: RecordMemory,
}

impl Memory {
    /// What is remembered before any call: this board, no list, and records of zeros.
    pub fn new(board: Board) -> Memory {
        Memory { board, access: [0; ACCESS_WORDS], records: [0; RECORD_WORDS] }
    }

    /// The row of a processor, which is on the board.
    fn row(&self, processor: u8) -> usize {
        self.board.row_of(processor).expect("a case names processors of its board")
    }

    /// The tallies of a processor, which is on the board.
    pub fn tallies(&self, processor: u8) -> Tallies {
        Record::load(&self.board, &self.records, self.row(processor)).tallies
    }

    /// Puts other tallies into the record of a processor, which is on the board.
    pub fn store_tallies(&mut self, processor: u8, tallies: Tallies) {
        let row = self.row(processor);
        let record = Record::load(&self.board, &self.records, row);
        Record { tallies, ..record }.store(&self.board, &mut self.records, row);
    }
}

/// The calls, whoever carries them out, with the lines that tell of them.
pub trait Calls {
    /// The board that stands at the start.
    fn start(&self) -> Board;

    /// Takes a description and gives its line.
    fn board(&self, memory: &mut Memory, description: &[u8]) -> String;

    /// Takes a list and gives its line.
    fn list(&self, memory: &mut Memory, list: &[u8]) -> String;

    /// Takes a block for these ABI bytes and gives its line.
    fn block(&self, memory: &mut Memory, abi: Abi, block: &[u8]) -> String;

    /// Takes a message and gives its line and the number of the role that it reports.
    fn message(&self, memory: &mut Memory, call: &Call, answer: &mut [u8]) -> (String, u32);
}

/// The calls of this crate.
pub struct Model;

impl Calls for Model {
    fn start(&self) -> Board {
        Board::first()
    }

    fn board(&self, memory: &mut Memory, description: &[u8]) -> String {
        line_of(&Event::Board(take_board(&mut memory.board, &memory.access, description)))
    }

    fn list(&self, memory: &mut Memory, list: &[u8]) -> String {
        line_of(&Event::List(accept_list(&memory.board, &mut memory.access, list)))
    }

    fn block(&self, memory: &mut Memory, abi: Abi, block: &[u8]) -> String {
        line_of(&Event::Block(accept_block(&memory.board, &mut memory.access, abi, block)))
    }

    fn message(&self, memory: &mut Memory, call: &Call, answer: &mut [u8]) -> (String, u32) {
        let setup = Setup { board: &memory.board, access: &memory.access };
        let report = handle(setup, &mut memory.records, call, answer);
        (message_line(report, answer), report.role.number())
    }
}

/// The line of a message with this report and this answer buffer.
pub fn message_line(report: Report, answer: &[u8]) -> String {
    let mut bytes = [0; ANSWER_BYTES];
    bytes[..report.written].copy_from_slice(&answer[..report.written]);
    line_of(&Event::Message(report, bytes))
}

/// The line of an event, which has one.
pub fn line_of(event: &Event) -> String {
    let mut line = Vec::new();
    write_line(&mut line, event).expect("a vector takes all bytes");
    String::from_utf8_lossy(&line).trim_end().to_string()
}

/// Says what differs, and how, if the two are not the same.
pub fn same<T: PartialEq + Debug>(what: &str, expected: &T, given: &T) -> Result<(), String> {
    if expected == given {
        return Ok(());
    }
    Err(format!("{what} differs\n expected {expected:x?}\n given    {given:x?}"))
}
