//! Recordings and calls with the blocks that are always the same, and with what comes before and
//! behind them.

use crate::access::ACCESS_WORDS;
use crate::block::{accept_block, BlockFault, BLOCK_BYTES};
use crate::harness::edges::blocks::{
    base, edge_blocks, full_board, resized, single_faults, with_faults, FIRST, FREE,
};
use crate::harness::edges::boards::asked;
use crate::harness::generate::blocks::{BlockCall, BlockDraft};
use crate::harness::generate::clients::client_list;
use crate::harness::generate::descriptions::full_fields;
use crate::harness::generate::recordings::{field, status_field};
use crate::message::Kind;
use crate::session::{RECORDED_ABI, TAG_BLOCK, TAG_BOARD, TAG_LIST};

/// Blocks that one recording holds.
const OFFERS: usize = 150;

/// All of these blocks as recordings on the full board. Those that are accepted have one each.
pub fn block_recordings() -> Vec<Vec<u8>> {
    let board = full_board();
    let is_good =
        |block: &Vec<u8>| accept_block(&board, &mut [0; ACCESS_WORDS], RECORDED_ABI, block).is_ok();
    let (accepted, refused): (Vec<_>, Vec<_>) = edge_blocks().into_iter().partition(is_good);
    let mut recordings: Vec<_> = refused.chunks(OFFERS).map(refused_recording).collect();
    recordings.extend(accepted.iter().map(|block| accepted_recording(block)));
    recordings.extend(history_recordings());
    recordings
}

/// Refused blocks, after which a list is still accepted, and what is then offered gets A1.
fn refused_recording(blocks: &[Vec<u8>]) -> Vec<u8> {
    let mut recording = field(TAG_BOARD, &full_fields().concat());
    recording.extend(offers(blocks));
    recording.extend(asked(Kind::Request, 3, 1));
    recording.extend(field(TAG_LIST, &client_list()));
    recording.extend(offers(&single_faults()));
    recording.extend(looks());
    recording
}

/// An accepted block, after which whatever is offered gets A1.
fn accepted_recording(block: &[u8]) -> Vec<u8> {
    let full = full_fields().concat();
    let mut recording = field(TAG_BOARD, &full);
    recording.extend(field(TAG_BLOCK, block));
    recording.extend(field(TAG_LIST, &client_list()));
    recording.extend(field(TAG_BOARD, &full));
    recording.extend(offers(&[block.to_vec(), Vec::new()]));
    recording.extend(offers(&single_faults()));
    recording.extend(looks());
    recording
}

fn offers(blocks: &[Vec<u8>]) -> Vec<u8> {
    blocks.iter().flat_map(|block| field(TAG_BLOCK, block)).collect()
}

/// Requests and looks that show which list is in force.
fn looks() -> Vec<u8> {
    let hosts = [3, 4, 10, 12, 13, FIRST].into_iter();
    let mut messages = status_field(&[0x13]);
    for (host, processor) in hosts.flat_map(|host| [1, 2, 32, 33, 200].map(|p| (host, p))) {
        messages.extend(asked(Kind::Request, host, processor));
        messages.extend(asked(Kind::GetStatus, host, processor));
    }
    messages
}

/// What each kind of field leaves to the next one.
fn history_recordings() -> Vec<Vec<u8>> {
    let good = field(TAG_BLOCK, &base().to_bytes());
    let list = field(TAG_LIST, &client_list());
    let short_list = field(TAG_LIST, &client_list()[1..]);
    let board = field(TAG_BOARD, &full_fields().concat());
    let otp_size = field(TAG_BLOCK, &with_faults(&[(BlockFault::B10, 0)]));
    let looped = field(TAG_BLOCK, &with_faults(&[(BlockFault::B8(0), FREE[0])]));
    let recordings = [
        vec![&otp_size, &list],
        vec![&otp_size, &good],
        vec![&board, &looped, &list],
        vec![&board, &looped, &good],
        vec![&short_list, &good],
        vec![&otp_size, &board, &good],
        vec![&good, &good, &list, &board],
        vec![&list, &good, &list, &board],
    ];
    let looked_at = |field: &&Vec<u8>| [field.as_slice(), &looks()].concat();
    recordings.iter().map(|fields| fields.iter().flat_map(looked_at).collect()).collect()
}

/// Block calls with all of these blocks, over access memory that says that no list was accepted,
/// some once more over memory that says otherwise, and blocks that no recording can hold.
pub fn edge_calls() -> Vec<BlockCall> {
    let call = |block, abi, accepted| {
        let mut access = [0x5AA5; ACCESS_WORDS];
        access[0] = accepted;
        BlockCall { board: full_board(), access, abi, block }
    };
    let mut calls: Vec<_> =
        edge_blocks().into_iter().map(|block| call(block, RECORDED_ABI, 0)).collect();
    calls.extend(single_faults().into_iter().map(|block| call(block, RECORDED_ABI, 0x100)));
    for length in [513, 65_535, 65_536, 65_536 + BLOCK_BYTES] {
        calls.push(call(resized(length), RECORDED_ABI, 0));
    }
    for byte in 0..=255 {
        for abi in [[byte, 1], [0, byte], [byte, byte]] {
            calls.push(call(BlockDraft { abi, ..base() }.to_bytes(), abi, 0));
            calls.push(call(base().to_bytes(), abi, 0));
        }
    }
    calls
}

#[cfg(test)]
mod tests {
    use super::*;
    use crate::block::BLOCK_FAULTS;

    #[test]
    fn edges_reach_each_verdict_often() {
        let mut counts = [0; BLOCK_FAULTS.len()];
        for BlockCall { board, mut access, abi, block } in edge_calls() {
            match accept_block(&board, &mut access, abi, &block) {
                Ok(()) => {}
                Err(fault) => counts[fault.place()] += 1,
            }
        }
        assert!(counts.iter().all(|&count| count > 9), "{counts:?}");
    }
}
