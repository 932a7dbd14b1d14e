//! The first implementation's three functions for recordings in pieces, by their C declarations,
//! behind safe wrappers.

use crate::access::ACCESS_WORDS;
use crate::board::BOARD_BYTES;
use crate::record::RECORD_WORDS;
use crate::stream::lent::{Lent, PROGRESS_WORDS, STATUS_WORDS, STREAM_WORDS};
use crate::stream::CARRY_BYTES;

extern "C" {
    fn pomrozek_replay_start(board: *mut u8, access: *mut u16, records: *mut u32, stream: *mut u32);

    fn pomrozek_replay_feed(
        board: *mut u8,
        access: *mut u16,
        records: *mut u32,
        words: *mut u32,
        carry: *mut u8,
        stream: *mut u32,
        piece: *const u8,
        piece_len: usize,
        out: *mut u8,
        out_len: usize,
        progress: *mut u64,
    ) -> u32;

    fn pomrozek_replay_end(
        carry: *const u8,
        stream: *mut u32,
        out: *mut u8,
        out_len: usize,
        progress: *mut u64,
    ) -> u32;
}

// The lengths that the C declarations name.
const _: () = assert!(BOARD_BYTES == 576 && ACCESS_WORDS == 129 && RECORD_WORDS == 288);
const _: () = assert!(STATUS_WORDS == 255 && CARRY_BYTES == 1023);
const _: () = assert!(STREAM_WORDS == 3 && PROGRESS_WORDS == 2);

/// The start call, which makes the memories a fresh session's.
pub fn start(lent: Lent) {
    // SAFETY: each pointer is valid for the length that the declaration gives, and none of the
    // memories overlaps another.
    unsafe {
        pomrozek_replay_start(
            lent.board.as_mut_ptr(),
            lent.access.as_mut_ptr(),
            lent.records.as_mut_ptr(),
            lent.stream.as_mut_ptr(),
        );
    }
}

/// The feed call: 0 if the piece is used up, 1 if a record waits for room, 2 if the recording is
/// over.
pub fn feed(lent: Lent, piece: &[u8], out: &mut [u8]) -> u32 {
    // SAFETY: each pointer is valid for the length that the declaration gives or that is passed,
    // and what may be written does not overlap anything else.
    unsafe {
        pomrozek_replay_feed(
            lent.board.as_mut_ptr(),
            lent.access.as_mut_ptr(),
            lent.records.as_mut_ptr(),
            lent.words.as_mut_ptr(),
            lent.carry.as_mut_ptr(),
            lent.stream.as_mut_ptr(),
            piece.as_ptr(),
            piece.len(),
            out.as_mut_ptr(),
            out.len(),
            lent.progress.as_mut_ptr(),
        )
    }
}

/// The end call: 1 if the end waits for room, 2 if the recording is over.
pub fn end(lent: Lent, out: &mut [u8]) -> u32 {
    // SAFETY: each pointer is valid for the length that the declaration gives or that is passed,
    // and what may be written does not overlap anything else.
    unsafe {
        pomrozek_replay_end(
            lent.carry.as_ptr(),
            lent.stream.as_mut_ptr(),
            out.as_mut_ptr(),
            out.len(),
            lent.progress.as_mut_ptr(),
        )
    }
}
