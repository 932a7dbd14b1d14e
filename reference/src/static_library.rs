//! The first implementation's five functions, by their C declarations, behind safe wrappers.

use crate::access::{AccessMemory, ACCESS_WORDS};
use crate::block::Abi;
use crate::board::{BoardMemory, BOARD_BYTES};
use crate::manager::Call;
use crate::record::{RecordMemory, RECORD_WORDS};

extern "C" {
    fn pomrozek_start(board: *mut u8);

    fn pomrozek_board(
        board: *mut u8,
        access: *const u16,
        description: *const u8,
        description_len: usize,
    ) -> u32;

    fn pomrozek_list(board: *const u8, access: *mut u16, list: *const u8, list_len: usize) -> u32;

    fn pomrozek_block(
        board: *const u8,
        access: *mut u16,
        abi_first: u8,
        abi_second: u8,
        block: *const u8,
        block_len: usize,
        loop_host: *mut u32,
    ) -> u32;

    fn pomrozek_message(
        board: *const u8,
        access: *const u16,
        records: *mut u32,
        channel: u8,
        message: *const u8,
        message_len: usize,
        status: *const u32,
        status_len: usize,
        answer: *mut u8,
        answer_len: usize,
        report: *mut u32,
    ) -> u32;
}

// The lengths that the C declarations name.
const _: () = assert!(BOARD_BYTES == 576 && ACCESS_WORDS == 129 && RECORD_WORDS == 288);

/// What the message call gave: outcome number, checks, microseconds, bytes written, role number.
#[derive(Clone, Copy, Debug, PartialEq, Eq)]
pub struct RawReport {
    pub outcome: u32,
    pub checks: u32,
    pub microseconds: u32,
    pub written: u32,
    pub role: u32,
}

/// Words of the report memory: all but the outcome, which is returned.
const REPORT_WORDS: usize = 4;

/// A number that no report has, so that a field left unwritten is seen.
const UNWRITTEN: u32 = 0xAAAA_AAAA;

/// The start call, which fills the memory with the first board.
pub fn start(board: &mut BoardMemory) {
    // SAFETY: the pointer is valid for the length that the declaration gives.
    unsafe { pomrozek_start(board.as_mut_ptr()) }
}

/// The board call: 0 if the description is taken, 1 for A1, 201 to 206 for D1 to D6.
pub fn board(board: &mut BoardMemory, access: &AccessMemory, description: &[u8]) -> u32 {
    // SAFETY: each pointer is valid for the length that the declaration gives or that is passed,
    // and what may be written does not overlap anything else.
    unsafe {
        pomrozek_board(board.as_mut_ptr(), access.as_ptr(), description.as_ptr(), description.len())
    }
}

/// The list call: 0 if it is accepted, 1 to 8 for A1 to A8.
pub fn list(board: &BoardMemory, access: &mut AccessMemory, list: &[u8]) -> u32 {
    // SAFETY: each pointer is valid for the length that the declaration gives or that is passed,
    // and what may be written does not overlap anything else.
    unsafe { pomrozek_list(board.as_ptr(), access.as_mut_ptr(), list.as_ptr(), list.len()) }
}

/// What the block call gave: its verdict (0 if it is accepted, k for Ak, 100 + k for Bk) and the
/// loop's host.
#[derive(Clone, Copy, Debug, PartialEq, Eq)]
pub struct RawVerdict {
    pub number: u32,
    pub loop_host: u32,
}

/// The block call.
pub fn block(board: &BoardMemory, access: &mut AccessMemory, abi: Abi, block: &[u8]) -> RawVerdict {
    let mut loop_host = [UNWRITTEN];
    // SAFETY: each pointer is valid for the length that the declaration gives or that is passed,
    // and what may be written does not overlap anything else.
    let number = unsafe {
        pomrozek_block(
            board.as_ptr(),
            access.as_mut_ptr(),
            abi[0],
            abi[1],
            block.as_ptr(),
            block.len(),
            loop_host.as_mut_ptr(),
        )
    };
    RawVerdict { number, loop_host: loop_host[0] }
}

/// The message call.
pub fn message(
    board: &BoardMemory,
    access: &AccessMemory,
    records: &mut RecordMemory,
    call: &Call,
    answer: &mut [u8],
) -> RawReport {
    let mut report = [UNWRITTEN; REPORT_WORDS];
    // SAFETY: each pointer is valid for the length that the declaration gives or that is passed,
    // and what may be written does not overlap anything else.
    let outcome = unsafe {
        pomrozek_message(
            board.as_ptr(),
            access.as_ptr(),
            records.as_mut_ptr(),
            call.channel,
            call.message.as_ptr(),
            call.message.len(),
            call.status.as_ptr(),
            call.status.len(),
            answer.as_mut_ptr(),
            answer.len(),
            report.as_mut_ptr(),
        )
    };
    let [checks, microseconds, written, role] = report;
    RawReport { outcome, checks, microseconds, written, role }
}
