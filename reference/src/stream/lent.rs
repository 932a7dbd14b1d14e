//! The memories of a replay as they are lent, and how its stream is read from them.

use crate::access::AccessMemory;
use crate::board::{Board, BoardMemory};
use crate::record::RecordMemory;
use crate::session::{State, LONGEST_STATUS};
use crate::stream::{Stream, CARRY_BYTES};

/// Words of the word memory: as many status words as a field can hold.
pub const STATUS_WORDS: usize = LONGEST_STATUS / 4;

/// Words of the stream memory.
pub const STREAM_WORDS: usize = 3;

/// Words that say how far a call came.
pub const PROGRESS_WORDS: usize = 2;

/// The status words that stand, from the first word on.
pub type WordMemory = [u32; STATUS_WORDS];

/// The bytes that are carried, from the first byte on.
pub type CarryMemory = [u8; CARRY_BYTES];

/// How many bytes are carried, how many status words stand, and whether the recording is over.
pub type StreamMemory = [u32; STREAM_WORDS];

/// Bytes of the piece that a call has taken, and bytes of the output that it has printed.
pub type Progress = [u64; PROGRESS_WORDS];

/// What the memories hold that a replay keeps between its calls. Any content is a session.
#[derive(Clone, Debug)]
pub struct Content {
    pub board: BoardMemory,
    pub access: AccessMemory,
    pub records: RecordMemory,
    pub words: WordMemory,
    pub carry: CarryMemory,
    pub stream: StreamMemory,
}

/// All that a replay is lent besides piece and output.
pub struct Lent<'a> {
    pub board: &'a mut BoardMemory,
    pub access: &'a mut AccessMemory,
    pub records: &'a mut RecordMemory,
    pub words: &'a mut WordMemory,
    pub carry: &'a mut CarryMemory,
    pub stream: &'a mut StreamMemory,
    pub progress: &'a mut Progress,
}

impl Lent<'_> {
    /// What the memories say, whatever they hold: more than there is room for counts as all of it,
    /// and any number but 0 says that the recording is over.
    pub fn read(&self) -> Stream {
        let [held, standing, over] = *self.stream;
        let state = State {
            board: Board(*self.board),
            access: *self.access,
            records: *self.records,
            status: self.words[..STATUS_WORDS.min(standing as usize)].to_vec(),
        };
        Stream {
            state,
            carry: self.carry[..CARRY_BYTES.min(held as usize)].to_vec(),
            over: over != 0,
        }
    }
}
