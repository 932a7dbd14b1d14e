//! Each fault of a block, their order, loops, and what is left.

use super::*;
use crate::access::{accept_list, ACCESS_WORDS};
use crate::board::{Host, FIRST_PROCESSORS};
use crate::description::{take_board, BoardFault};
use BlockFault::{B1, B10, B2, B3, B4, B5, B6, B7, B8, B9};

const ABI: Abi = [0, 1];
const ONE: [u8; 9] = [1, 3, 0, 5, 0, 0, 0, 0, 0];

/// A block with entry `ONE` in its list, these pairs from the first entry of the hierarchy on, and
/// nothing but zeros in the rest.
fn block_of(pairs: &[[u8; 2]]) -> Vec<u8> {
    let mut block = vec![0; 431];
    block[..2].copy_from_slice(&ABI);
    block[2..6].copy_from_slice(&[0xEA, 0xF1, 0x24, 0x01]);
    block[6..15].copy_from_slice(&ONE);
    block[294..298].copy_from_slice(&[0x27, 0x8D, 0x44, 0x00]);
    for (pair, bytes) in block[298..362].chunks_exact_mut(2).zip(pairs) {
        pair.copy_from_slice(bytes);
    }
    block[362..366].copy_from_slice(&[0x81, 0x40, 0x45, 0x00]);
    block
}

/// A board with hosts 1 to 64 and one processor.
fn large_board() -> Board {
    let hosts: Vec<_> = (1..=64).map(|number| Host { number, secure: false }).collect();
    Board::new(&hosts, &FIRST_PROCESSORS[..1])
}

fn verdict_on(board: &Board, block: &[u8]) -> Result<(), BlockFault> {
    accept_block(board, &mut [0; ACCESS_WORDS], ABI, block)
}

fn verdict(block: &[u8]) -> Result<(), BlockFault> {
    verdict_on(&Board::first(), block)
}

fn verdict_of(pairs: &[[u8; 2]]) -> Result<(), BlockFault> {
    verdict(&block_of(pairs))
}

fn verdict_of_large(pairs: &[[u8; 2]]) -> Result<(), BlockFault> {
    verdict_on(&large_board(), &block_of(pairs))
}

/// The block with some bytes changed.
fn with(block: &[u8], changes: &[(usize, u8)]) -> Vec<u8> {
    let mut changed = block.to_vec();
    changes.iter().for_each(|&(at, byte)| changed[at] = byte);
    changed
}

#[test]
fn places_and_sizes() {
    assert_eq!([LIST_AT, HIERARCHY_AT, OTP_AT, BLOCK_BYTES], [2, 294, 362, 431]);
    assert_eq!([HIERARCHY_BYTES, OTP_BYTES], [68, 69]);
}

#[test]
fn numbers_and_lines_of_faults() {
    let numbers = [1, 101, 102, 3, 4, 5, 6, 7, 8, 103, 104, 105, 106, 107, 108, 109, 110];
    assert_eq!(BLOCK_FAULTS.map(BlockFault::number), numbers);
    let places: Vec<_> = BLOCK_FAULTS.iter().map(|fault| fault.place()).collect();
    assert_eq!(places, (0..17).collect::<Vec<_>>());
    let texts = [BlockFault::List(ListFault::A7), B1, B8(5), B10].map(|fault| fault.to_string());
    assert_eq!(texts, ["A7", "B1", "B8 5", "B10"]);
    assert_eq!(BLOCK_FAULTS.map(BlockFault::loop_host), [0; 17]);
    assert_eq!(B8(5).loop_host(), 5);
}

#[test]
fn accepted_block_leaves_what_its_list_leaves() {
    let block = block_of(&[[5, 3], [3, 0]]);
    let mut by_block = [0x5A5A; ACCESS_WORDS];
    by_block[0] = 0;
    let mut by_list = by_block;
    assert_eq!(accept_block(&Board::first(), &mut by_block, ABI, &block), Ok(()));
    assert_eq!(accept_list(&Board::first(), &mut by_list, &block[2..294]), Ok(()));
    assert_eq!(by_block, by_list);
    assert_eq!(by_block[..5], [1, 3, 5, 0, 0]);
}

#[test]
fn refused_block_changes_nothing() {
    let mut access = [7; ACCESS_WORDS];
    access[0] = 0;
    let before = access;
    let last_fault = with(&block_of(&[]), &[(364, 0x44)]);
    assert_eq!(accept_block(&Board::first(), &mut access, ABI, &last_fault), Err(B10));
    assert_eq!(access, before);
    assert_eq!(accept_list(&Board::first(), &mut access, &last_fault[2..294]), Ok(()));
}

#[test]
fn any_nonzero_first_word_gives_a1() {
    for word in [1, 2, 0x100, 0x8000] {
        let mut access = [0; ACCESS_WORDS];
        access[0] = word;
        for block in [block_of(&[]), Vec::new()] {
            let verdict = accept_block(&Board::first(), &mut access, ABI, &block);
            assert_eq!(verdict, Err(BlockFault::List(ListFault::A1)));
        }
    }
}

#[test]
fn block_closes_the_way_for_lists_and_boards() {
    let (mut board, mut access) = (Board::first(), [0; ACCESS_WORDS]);
    let block = block_of(&[]);
    assert_eq!(accept_block(&board, &mut access, ABI, &block), Ok(()));
    assert_eq!(accept_list(&board, &mut access, &block[2..294]), Err(ListFault::A1));
    assert_eq!(take_board(&mut board, &access, &[]), Err(BoardFault::A1));
}

#[test]
fn every_length_but_one_is_refused() {
    let mut block = block_of(&[]);
    block.resize(512, 0);
    for length in 0..=512 {
        let expected = if length == 431 { Ok(()) } else { Err(B1) };
        assert_eq!(verdict(&block[..length]), expected, "{length}");
    }
}

#[test]
fn abi_bytes_are_those_that_the_caller_names() {
    let judge = |abi, bytes: [u8; 2]| {
        let block = with(&block_of(&[]), &[(0, bytes[0]), (1, bytes[1])]);
        accept_block(&Board::first(), &mut [0; ACCESS_WORDS], abi, &block)
    };
    for abi in [[0, 1], [1, 0], [0xFF, 0], [7, 7]] {
        assert_eq!(judge(abi, abi), Ok(()));
        assert_eq!(judge(abi, [abi[0] ^ 1, abi[1]]), Err(B2));
        assert_eq!(judge(abi, [abi[0], abi[1] ^ 0x80]), Err(B2));
    }
    assert_eq!(judge([0, 1], [1, 0]), Err(B2));
}

/// A block with every fault that one block can have, mended one by one.
#[test]
fn faults_are_tested_in_order() {
    let spoiled = [(0, 9), (2, 0), (4, 0), (6, 3), (294, 0), (296, 0), (362, 0), (364, 0)];
    let mut faulty = with(&block_of(&[[7, 7], [3, 4]]), &spoiled);
    faulty.push(0);
    assert_eq!(verdict(&faulty), Err(B1));
    faulty.pop();
    let mends = [
        (0, 0, B2),
        (2, 0xEA, BlockFault::List(ListFault::A3)),
        (4, 0x24, BlockFault::List(ListFault::A4)),
        (6, 1, BlockFault::List(ListFault::A5)),
        (294, 0x27, B3),
        (296, 0x44, B4),
        (298, 3, B5),
        (299, 0, B6),
        (300, 4, B7),
        (301, 0, B8(4)),
        (362, 0x81, B9),
        (364, 0x45, B10),
    ];
    for (at, byte, fault) in mends {
        assert_eq!(verdict(&faulty), Err(fault), "{at}");
        faulty[at] = byte;
    }
    assert_eq!(verdict(&faulty), Ok(()));
}

#[test]
fn magics_and_sizes_are_compared_whole() {
    let good = block_of(&[]);
    let fields = [
        (2, BlockFault::List(ListFault::A3)),
        (4, BlockFault::List(ListFault::A4)),
        (294, B3),
        (296, B4),
        (362, B9),
        (364, B10),
    ];
    for ((at, fault), bit) in fields.iter().flat_map(|field| (0..16).map(move |bit| (field, bit))) {
        let place = at + bit / 8;
        let block = with(&good, &[(place, good[place] ^ (1 << (bit % 8)))]);
        assert_eq!(verdict(&block), Err(*fault), "{place} {bit}");
    }
}

#[test]
fn faults_of_the_list_keep_their_order() {
    use ListFault::{A5, A6, A7, A8};
    let entry = |entry: [u8; 9]| {
        let mut block = block_of(&[[7, 7]]);
        block[15..24].copy_from_slice(&entry);
        verdict(&block)
    };
    assert_eq!(entry([3, 7, 0, 7, 0, 0, 0, 0, 0]), Err(BlockFault::List(A5)));
    assert_eq!(entry([1, 7, 0, 7, 0, 0, 0, 0, 0]), Err(BlockFault::List(A6)));
    assert_eq!(entry([2, 10, 1, 7, 0, 0, 0, 0, 0]), Err(BlockFault::List(A7)));
    assert_eq!(entry([2, 10, 0, 7, 0, 0, 0, 0, 0]), Err(BlockFault::List(A8)));
}

#[test]
fn entries_are_judged_one_by_one() {
    assert_eq!(verdict_of(&[[7, 9]]), Err(B5));
    assert_eq!(verdict_of(&[[3, 9]]), Err(B6));
    assert_eq!(verdict_of(&[[3, 0], [3, 9]]), Err(B6));
    assert_eq!(verdict_of(&[[3, 0], [3, 4]]), Err(B7));
    assert_eq!(verdict_of(&[[3, 0], [3, 0], [7, 0]]), Err(B7));
    assert_eq!(verdict_of(&[[3, 9], [7, 0]]), Err(B6));
    assert_eq!(verdict_of(&[[3, 3], [4, 0], [4, 0]]), Err(B7));
    assert_eq!(verdict_of(&[[3, 3], [13, 255]]), Err(B6));
    let last = [[[0, 0]; 31].as_slice(), &[[7, 0]]].concat();
    assert_eq!(verdict_of(&last), Err(B5));
}

#[test]
fn host_0_supervises_and_marks_unused_entries() {
    assert_eq!(verdict_of(&[[3, 0], [10, 0]]), Ok(()));
    assert_eq!(verdict_of(&[[0, 9], [3, 0], [0, 255], [10, 3], [0, 0]]), Ok(()));
    assert_eq!(verdict_of(&[[0, 3], [3, 0], [0, 10]]), Ok(()));
}

#[test]
fn ways_end_at_host_0_or_without_an_entry() {
    assert_eq!(verdict_of(&[[3, 10], [4, 3], [5, 4]]), Ok(()));
    assert_eq!(verdict_of(&[[5, 4], [4, 3], [3, 0]]), Ok(()));
    let up: Vec<_> = (1..=32).map(|host| [host, host + 1]).collect();
    let down: Vec<_> = (1..=32).map(|host| [host, host - 1]).collect();
    assert_eq!(verdict_of_large(&up), Ok(()));
    assert_eq!(verdict_of_large(&down), Ok(()));
}

#[test]
fn loops_name_their_first_host_in_entry_order() {
    assert_eq!(verdict_of(&[[5, 5]]), Err(B8(5)));
    assert_eq!(verdict_of(&[[10, 3], [3, 10]]), Err(B8(10)));
    assert_eq!(verdict_of(&[[4, 0], [3, 10], [5, 3], [10, 3]]), Err(B8(3)));
    let around: Vec<_> = (1..=32).map(|host| [host, 1 + host % 32]).collect();
    assert_eq!(verdict_of_large(&around), Err(B8(1)));
    let backwards: Vec<_> = around.into_iter().rev().collect();
    assert_eq!(verdict_of_large(&backwards), Err(B8(32)));
}

#[test]
fn ways_into_a_loop_do_not_lie_on_it() {
    assert_eq!(verdict_of(&[[3, 4], [4, 5], [5, 4]]), Err(B8(4)));
    assert_eq!(verdict_of(&[[3, 13], [4, 3], [13, 13]]), Err(B8(13)));
    let mut way: Vec<_> = (1..=31).map(|host| [host, host + 1]).collect();
    way.push([32, 32]);
    assert_eq!(verdict_of_large(&way), Err(B8(32)));
    way[31] = [32, 31];
    assert_eq!(verdict_of_large(&way), Err(B8(31)));
}

#[test]
fn first_of_two_loops_is_told() {
    assert_eq!(verdict_of(&[[12, 13], [4, 3], [13, 12], [3, 4]]), Err(B8(12)));
    assert_eq!(verdict_of(&[[5, 3], [6, 6], [3, 3]]), Err(B8(6)));
}

#[test]
fn otp_bytes_are_not_judged() {
    for filler in [1, 7, 128, 255] {
        let mut block = block_of(&[]);
        block[366..].fill(filler);
        assert_eq!(verdict(&block), Ok(()));
    }
}

/// Host 0 is on every board, and any nonzero byte is a host.
#[test]
fn boards_of_any_content() {
    let mut board = Board::first();
    board.0[0] = 0;
    board.0[255] = 0x80;
    assert_eq!(verdict_on(&board, &block_of(&[[255, 0], [3, 255]])), Ok(()));
    assert_eq!(verdict_on(&board, &block_of(&[[255, 255]])), Err(B8(255)));
}
