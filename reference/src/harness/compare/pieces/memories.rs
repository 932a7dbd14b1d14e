//! The memories of a replay between guards, and what a call has to leave in them.

use crate::board::Board;
use crate::harness::compare::calls::same;
use crate::harness::compare::guards::{guarded, has_guards, inside, lent_part};
use crate::session::State;
use crate::stream::lent::{Content, Lent, Progress, PROGRESS_WORDS};
use crate::stream::Stream;

const BYTE: u8 = 0x5A;
const HALF_WORD: u16 = 0x5AA5;
const WORD: u32 = 0x5AA5_5AA5;
const LONG_WORD: u64 = 0x5AA5_5AA5_5AA5_5AA5;

/// A number that no call leaves, so that progress left unwritten is seen.
const UNWRITTEN: u64 = 0xAAAA_AAAA_AAAA_AAAA;

/// All that a replay is lent besides piece and output, between guards.
pub struct Memories {
    board: Vec<u8>,
    access: Vec<u16>,
    records: Vec<u32>,
    words: Vec<u32>,
    carry: Vec<u8>,
    stream: Vec<u32>,
    progress: Vec<u64>,
}

impl Memories {
    /// Memories with this content.
    pub fn new(content: &Content) -> Memories {
        Memories {
            board: guarded(&content.board, BYTE),
            access: guarded(&content.access, HALF_WORD),
            records: guarded(&content.records, WORD),
            words: guarded(&content.words, WORD),
            carry: guarded(&content.carry, BYTE),
            stream: guarded(&content.stream, WORD),
            progress: guarded(&[UNWRITTEN; PROGRESS_WORDS], LONG_WORD),
        }
    }

    /// What is lent of them, with no progress yet.
    pub fn lend(&mut self) -> Lent<'_> {
        let progress: &mut Progress = lent_part(&mut self.progress);
        *progress = [UNWRITTEN; PROGRESS_WORDS];
        Lent {
            board: lent_part(&mut self.board),
            access: lent_part(&mut self.access),
            records: lent_part(&mut self.records),
            words: lent_part(&mut self.words),
            carry: lent_part(&mut self.carry),
            stream: lent_part(&mut self.stream),
            progress,
        }
    }

    /// How far the last call came: bytes taken, and bytes printed.
    pub fn progress(&self) -> [usize; PROGRESS_WORDS] {
        [inside(&self.progress)[0], inside(&self.progress)[1]].map(|number| number as usize)
    }

    /// The words of the stream.
    pub fn stream(&self) -> &[u32] {
        inside(&self.stream)
    }

    /// The carry, also what does not count of it.
    pub fn carry(&self) -> &[u8] {
        inside(&self.carry)
    }

    /// The bytes that are carried.
    pub fn held(&self) -> &[u8] {
        let carry = self.carry();
        &carry[..carry.len().min(self.stream()[0] as usize)]
    }

    /// The status words that stand.
    fn standing(&self) -> &[u32] {
        let words = inside(&self.words);
        &words[..words.len().min(self.stream()[1] as usize)]
    }

    /// Whether the memories hold what the fields have left, and the stream says whether it is over.
    /// Once it is, the papers say nothing of the words that stand.
    pub fn check(&self, model: &Stream) -> Result<(), String> {
        same("word of the end", &u32::from(model.over), &self.stream()[2])?;
        self.check_manager(&model.state)?;
        if model.over {
            return Ok(());
        }
        same("status words", &&model.state.status[..], &self.standing())
    }

    /// Whether board, access and record memory hold what the fields have left.
    pub fn check_manager(&self, state: &State) -> Result<(), String> {
        let Board(board) = &state.board;
        same("board memory", &&board[..], &inside(&self.board))?;
        same("access memory", &&state.access[..], &inside(&self.access))?;
        same("record memory", &&state.records[..], &inside(&self.records))
    }

    /// Whether all guards stand.
    pub fn check_guards(&self) -> Result<(), String> {
        let stand = [
            ("board memory", has_guards(&self.board, BYTE)),
            ("access memory", has_guards(&self.access, HALF_WORD)),
            ("record memory", has_guards(&self.records, WORD)),
            ("word memory", has_guards(&self.words, WORD)),
            ("carry", has_guards(&self.carry, BYTE)),
            ("stream", has_guards(&self.stream, WORD)),
            ("progress", has_guards(&self.progress, LONG_WORD)),
        ];
        match stand.iter().find(|(_, stands)| !stands) {
            Some((name, _)) => Err(format!("something was written beside the {name}")),
            None => Ok(()),
        }
    }
}
