//! Memories between guards, as they are lent to the static library.

use crate::access::AccessMemory;
use crate::board::{Board, BoardMemory};
use crate::harness::compare::calls::same;
use crate::harness::compare::guards::{guarded, lent_part};

const BYTE: u8 = 0x5A;
const HALF_WORD: u16 = 0x5AA5;

/// Board and access memory, which all calls but start get.
pub struct Lent {
    board: Vec<u8>,
    access: Vec<u16>,
}

impl Lent {
    /// Copies of both.
    pub fn new(board: &Board, access: &AccessMemory) -> Lent {
        Lent { board: guarded(&board.0, BYTE), access: guarded(access, HALF_WORD) }
    }

    /// What is lent of them.
    pub fn parts(&mut self) -> (&mut BoardMemory, &mut AccessMemory) {
        (lent_part(&mut self.board), lent_part(&mut self.access))
    }

    /// Whether a call has left these, and the guards.
    pub fn compare(&self, board: &Board, access: &AccessMemory) -> Result<(), String> {
        same("board memory", &guarded(&board.0, BYTE), &self.board)?;
        same("access memory", &guarded(access, HALF_WORD), &self.access)
    }
}
