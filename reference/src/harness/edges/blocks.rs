//! Blocks that are always the same: every length, every bit of the headers,
//! each fault alone and beside each other, every host byte, and ways and loops of every length.

use std::mem::swap;

use crate::access::{ListFault, ACCESS_WORDS};
use crate::block::{
    BlockFault, BLOCK_BYTES, BLOCK_FAULTS, HIERARCHY_AT, HIERARCHY_ENTRIES, LIST_AT, OTP_AT,
    PART_HEADER_BYTES,
};
use crate::board::{Board, ROWS};
use crate::description::take_board;
use crate::harness::generate::blocks::BlockDraft;
use crate::harness::generate::clients::client_list;
use crate::harness::generate::descriptions::full_fields;
use crate::harness::generate::lists::{entry, list_of, put};
use crate::session::{LONGEST_BLOCK, RECORDED_ABI};

/// A number that neither a host nor a processor of the full board has.
const ABSENT: u8 = 99;

/// The first of the full board's hosts from which ways and loops are made, and one beyond them.
pub const FIRST: u8 = 100;
const BEYOND: u8 = 156;

/// The hierarchy of the block that all others are made from.
const PAIRS: [[u8; 2]; 5] = [[3, 0], [10, 0], [12, 10], [13, 12], [5, 4]];

/// Two entries that this leaves free, in a list or in a hierarchy.
pub const FREE: [usize; 2] = [10, 11];

/// The largest board, which all of these blocks are made for.
pub fn full_board() -> Board {
    let mut board = Board::first();
    let taken = take_board(&mut board, &[0; ACCESS_WORDS], &full_fields().concat());
    taken.expect("the full board is taken");
    board
}

/// Always the same blocks, for the full board and the ABI bytes of recordings.
pub fn edge_blocks() -> Vec<Vec<u8>> {
    let mut blocks: Vec<_> = (0..=LONGEST_BLOCK).map(resized).collect();
    blocks.extend(header_bits());
    blocks.extend(single_faults());
    blocks.extend(fault_pairs());
    blocks.extend(entry_faults());
    blocks.extend(mistaken());
    blocks.extend(host_bytes());
    blocks.extend(ways());
    blocks.extend(loops());
    blocks.extend(two_loops());
    blocks.extend(not_judged());
    blocks
}

/// A good block that uses some entries of its list and of its hierarchy.
pub fn base() -> BlockDraft {
    let mut draft = BlockDraft::new(RECORDED_ABI, client_list());
    draft.pairs[..PAIRS.len()].copy_from_slice(&PAIRS);
    draft
}

/// The good block cut off, or with zeros behind it.
pub fn resized(length: usize) -> Vec<u8> {
    let mut block = base().to_bytes();
    block.resize(length, 0);
    block
}

/// Each bit of the ABI bytes, the magics and the sizes changed.
fn header_bits() -> Vec<Vec<u8>> {
    let parts = [LIST_AT, HIERARCHY_AT, OTP_AT].map(|at| at..at + PART_HEADER_BYTES);
    let places = (0..LIST_AT).chain(parts.into_iter().flatten());
    let flipped = |(at, bit): (usize, u32)| {
        let mut block = base().to_bytes();
        block[at] ^= 1 << bit;
        block
    };
    places.flat_map(|at| (0..8).map(move |bit| (at, bit))).map(flipped).collect()
}

/// Each fault by itself.
pub fn single_faults() -> Vec<Vec<u8>> {
    BLOCK_FAULTS.iter().map(|&fault| with_faults(&[(fault, FREE[0])])).collect()
}

/// Each two faults in one block, those of entries in both orders. A1 is none of the block itself.
fn fault_pairs() -> Vec<Vec<u8>> {
    let [first, second] = FREE;
    let mut blocks = Vec::new();
    for (place, &fault) in BLOCK_FAULTS.iter().enumerate().skip(1) {
        for &later in &BLOCK_FAULTS[place + 1..] {
            blocks.push(with_faults(&[(fault, first), (later, second)]));
            blocks.push(with_faults(&[(later, first), (fault, second)]));
        }
    }
    blocks
}

/// The good block with these faults, each in this entry where it is one of an entry.
pub fn with_faults(faults: &[(BlockFault, usize)]) -> Vec<u8> {
    let mut draft = base();
    faults.iter().for_each(|&(fault, slot)| plant(&mut draft, fault, slot));
    let mut block = draft.to_bytes();
    if faults.iter().any(|&(fault, _)| fault == BlockFault::B1) {
        block.push(0);
    }
    block
}

/// Puts a fault into the block. A1 and B1 are in no part of it.
fn plant(draft: &mut BlockDraft, fault: BlockFault, slot: usize) {
    match fault {
        BlockFault::List(fault) => plant_in_list(&mut draft.list, fault, slot),
        BlockFault::B1 => {}
        BlockFault::B2 => draft.abi[1] ^= 2,
        BlockFault::B3 => draft.hierarchy[0] ^= 1,
        BlockFault::B4 => draft.hierarchy[1] ^= 1,
        BlockFault::B5 => draft.pairs[slot] = [ABSENT, 0],
        BlockFault::B6 => draft.pairs[slot] = [FIRST, ABSENT],
        BlockFault::B7 => draft.pairs[slot] = PAIRS[0],
        BlockFault::B8(_) => draft.pairs[slot] = [BEYOND; 2],
        BlockFault::B9 => draft.otp[0] ^= 1,
        BlockFault::B10 => draft.otp[1] ^= 1,
    }
}

fn plant_in_list(list: &mut [u8], fault: ListFault, slot: usize) {
    match fault {
        ListFault::A1 | ListFault::A2 => {}
        ListFault::A3 => list[0] ^= 1,
        ListFault::A4 => list[2] ^= 1,
        ListFault::A5 => put(list, slot, &entry(ABSENT, [3, 0, 0, 0])),
        ListFault::A6 => put(list, slot, &entry(1, [3, 0, 0, 0])),
        ListFault::A7 => put(list, slot, &entry(200, [0x0103, 0, 0, 0])),
        ListFault::A8 => put(list, slot, &entry(201, [3, 0, 0, 0x0103])),
    }
}

/// Faults in one entry and in several, in the first free one and in the last.
fn entry_faults() -> Vec<Vec<u8>> {
    let entries: [&[[u8; 2]]; 12] = [
        &[[ABSENT, ABSENT]],
        &[[3, ABSENT]],
        &[[3, 0]],
        &[[3, 4]],
        &[[5, 5]],
        &[[FIRST, ABSENT], [ABSENT, 0]],
        &[[3, 0], [ABSENT, 0]],
        &[[3, 4], [FIRST, ABSENT]],
        &[[FIRST, FIRST], [ABSENT, 0]],
        &[[FIRST, FIRST], [FIRST, 0]],
        &[[FIRST, 0], [FIRST, FIRST]],
        &[[0, ABSENT], [FIRST, 0], [0, 255], [101, FIRST]],
    ];
    let at = |slot: usize, pairs: &[[u8; 2]]| {
        let mut draft = base();
        draft.pairs[slot..][..pairs.len()].copy_from_slice(pairs);
        draft.to_bytes()
    };
    let both =
        |pairs: &&[[u8; 2]]| [at(PAIRS.len(), pairs), at(HIERARCHY_ENTRIES - pairs.len(), pairs)];
    entries.iter().flat_map(both).collect()
}

/// Bytes and numbers in each other's place.
fn mistaken() -> Vec<Vec<u8>> {
    let of = |change: fn(&mut BlockDraft)| {
        let mut draft = base();
        change(&mut draft);
        draft.to_bytes()
    };
    vec![
        of(|draft| draft.abi.swap(0, 1)),
        of(|draft| draft.abi = [0, 0]),
        of(|draft| draft.abi = [1, 1]),
        of(|draft| draft.hierarchy = draft.hierarchy.map(u16::swap_bytes)),
        of(|draft| draft.otp = draft.otp.map(u16::swap_bytes)),
        of(|draft| swap(&mut draft.hierarchy[0], &mut draft.otp[0])),
        of(|draft| swap(&mut draft.hierarchy[1], &mut draft.otp[1])),
        vec![0; BLOCK_BYTES],
        vec![255; BLOCK_BYTES],
    ]
}

/// Every byte as a host and as a supervisor, in blocks that are refused for B10 at last.
fn host_bytes() -> Vec<Vec<u8>> {
    let pairs = (0..=255).flat_map(|byte| [[byte, 0], [FIRST, byte]]);
    let with = |pair| {
        let mut draft = base();
        draft.pairs[FREE[0]] = pair;
        plant(&mut draft, BlockFault::B10, 0);
        draft.to_bytes()
    };
    pairs.map(with).collect()
}

/// A block whose hierarchy has these entries alone, from the first on.
fn hierarchy_of(pairs: &[[u8; 2]]) -> BlockDraft {
    let mut draft = BlockDraft::new(RECORDED_ABI, client_list());
    draft.pairs[..pairs.len()].copy_from_slice(pairs);
    draft
}

/// So many hosts, each with the next one as supervisor and the last with this one.
fn way_of(length: usize, end: u8) -> Vec<[u8; 2]> {
    let host = |place: usize| FIRST + place as u8;
    let mut pairs: Vec<_> = (0..length).map(|place| [host(place), host(place + 1)]).collect();
    pairs[length - 1][1] = end;
    pairs
}

/// Ways of each length that end at host 0 or at a host without an entry, with the entries in both
/// orders. The shortest and the longest are accepted; all are told from B10.
fn ways() -> Vec<Vec<u8>> {
    let mut blocks = Vec::new();
    for (length, end) in (1..=HIERARCHY_ENTRIES).flat_map(|length| [(length, 0), (length, BEYOND)])
    {
        for pairs in both_orders(way_of(length, end)) {
            let mut draft = hierarchy_of(&pairs);
            if [1, HIERARCHY_ENTRIES].contains(&length) {
                blocks.push(draft.to_bytes());
            }
            plant(&mut draft, BlockFault::B10, 0);
            blocks.push(draft.to_bytes());
        }
    }
    blocks
}

/// Ways of each length that lead back to each of their hosts, with the entries in both orders.
fn loops() -> Vec<Vec<u8>> {
    let lengths = 1..=HIERARCHY_ENTRIES;
    let ends = lengths.flat_map(|length| (0..length).map(move |end| (length, FIRST + end as u8)));
    let pairs = ends.flat_map(|(length, end)| both_orders(way_of(length, end)));
    pairs.map(|pairs| hierarchy_of(&pairs).to_bytes()).collect()
}

fn both_orders(pairs: Vec<[u8; 2]>) -> [Vec<[u8; 2]>; 2] {
    let backwards = pairs.iter().rev().copied().collect();
    [pairs, backwards]
}

/// Two loops, side by side and by turns, with hosts that lead into one or the other.
fn two_loops() -> Vec<Vec<u8>> {
    let entries: [&[[u8; 2]]; 6] = [
        &[[102, 102], [101, 101]],
        &[[101, 101], [102, 102]],
        &[[102, 103], [101, 100], [103, 102], [100, 101]],
        &[[104, 101], [103, 102], [101, 101], [102, 102]],
        &[[104, 102], [103, 101], [105, 0], [102, 102], [101, 101]],
        &[[105, 104], [104, 103], [103, 105], [100, 104], [101, 101]],
    ];
    let forwards = entries.map(|pairs| hierarchy_of(pairs).to_bytes());
    let backwards = entries.map(|pairs| {
        let pairs: Vec<_> = pairs.iter().rev().copied().collect();
        hierarchy_of(&pairs).to_bytes()
    });
    [forwards, backwards].concat()
}

/// Good blocks with other bytes where nothing is judged, with an empty list, and with a full one.
fn not_judged() -> Vec<Vec<u8>> {
    let mut drafts = [(); 6].map(|()| base());
    drafts[0].otp_rest.fill(255);
    drafts[1].otp_rest[0] = ABSENT;
    *drafts[2].otp_rest.last_mut().expect("there are OTP bytes") = ABSENT;
    drafts[3].pairs[PAIRS.len()..].fill([0, ABSENT]);
    drafts[4] = BlockDraft::new(RECORDED_ABI, list_of(&[]));
    let all: Vec<_> = full_board().processors().iter().map(|&p| entry(p, [3, 0, 0, 0])).collect();
    assert_eq!(all.len(), ROWS);
    drafts[5].list = list_of(&all);
    drafts.map(|draft| draft.to_bytes()).to_vec()
}

#[cfg(test)]
mod tests {
    use super::*;
    use crate::block::accept_block;

    #[test]
    fn faults_are_planted_as_named() {
        let verdict =
            |block: &[u8]| accept_block(&full_board(), &mut [0; ACCESS_WORDS], RECORDED_ABI, block);
        assert_eq!(verdict(&base().to_bytes()), Ok(()));
        for (fault, block) in BLOCK_FAULTS[1..].iter().zip(&single_faults()[1..]) {
            assert_eq!(verdict(block).map_err(BlockFault::number), Err(fault.number()));
        }
    }
}
